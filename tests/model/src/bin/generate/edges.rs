//! Events at the edges of every field, length, kind and mark.

use crate::run::{Run, ROOM};
use charging_model::event::{self, octets, Start, What, QOS_HIGHEST};
use charging_model::node::SLOTS;

impl Run {
    /// Events of every length 0..300, with fitting and other contents.
    pub fn lengths(&mut self) {
        for length in 0..=300usize {
            let kind = self.random.between(0, 13) as u8;
            let mut event: Vec<u8> = match self.random.below(4) {
                0 => (0..300).map(|_| self.random.octet()).collect(),
                1 => vec![self.random.octet(); 300],
                _ => {
                    let shaped = kind.clamp(1, 12);
                    let mut event = self.shape(shaped, false);
                    event.resize(300, b'x');
                    event
                }
            };
            if self.random.percent(70) {
                event[..2].copy_from_slice(&event::MARK);
                event[2] = kind;
            }
            if length >= 37 && kind == 1 && self.random.percent(70) {
                event[36] = (length - 37) as u8;
            }
            event.truncate(length);
            if self.keeps_pace(&event) {
                self.call(&event, ROOM);
            } else {
                event[3..7].copy_from_slice(&self.node.clock.to_be_bytes());
                self.call(&event, ROOM);
            }
        }
    }

    /// The edges of every field of an activate; those taken are released.
    pub fn fields_of_activate(&mut self) {
        if self.node.active() == SLOTS {
            let name = self.active_name().unwrap();
            self.release(name);
        }
        let name = self.free_name();
        let mut events = Vec::new();
        let time = self.time();
        let mut plain = self.start();
        plain.apn = self.apn(3);
        let with = |start: Start| octets(time, &What::Activate(name, Box::new(start)));
        for flags in [0, 1, 2, 3, 4, 7, 8, 128, 255] {
            events.push(with(Start { flags, ..plain.clone() }));
        }
        for digits in 0..=16 {
            events.push(with(Start { imsi: self.imsi(digits), ..plain.clone() }));
        }
        for half in 0..16 {
            let digits = self.random.between(6, 15) as usize;
            let value = self.random.between(9, 15) as u8;
            let mut imsi = self.imsi(digits);
            let octet = &mut imsi[half / 2];
            *octet = if half % 2 == 0 { *octet & 0xF0 | value } else { *octet & 15 | value << 4 };
            events.push(with(Start { imsi, ..plain.clone() }));
        }
        for at in 0..5 {
            for value in [0, QOS_HIGHEST[at], QOS_HIGHEST[at] + 1, 255] {
                let mut qos = plain.qos;
                qos[at] = value;
                events.push(with(Start { qos, ..plain.clone() }));
            }
        }
        for length in [0, 1, 2, 62, 63, 64, 65, 127, 128, 255] {
            events.push(with(Start { apn: self.apn(length), ..plain.clone() }));
        }
        // the letters of both cases, and the octets beside them
        for octet in *b"@AZ[`az{" {
            for at in 0..plain.apn.len() {
                let mut apn = plain.apn.clone();
                apn[at] = octet;
                events.push(with(Start { apn, ..plain.clone() }));
            }
        }
        for (n, length) in [(0, 38), (1, 37), (2, 38), (1, 39), (63, 101), (64, 100), (255, 37)] {
            let mut event = with(Start { apn: vec![b'a'; 64], ..plain.clone() });
            event[36] = n;
            event.truncate(length);
            events.push(event);
        }
        events.push(with(plain.clone())[..36].to_vec());
        for event in events {
            if self.call(&event, ROOM) == 0 {
                // A management first in some, for a number.
                if self.random.percent(30) {
                    self.say_at(time, What::Management(name));
                }
                let cause = self.random.pick(&[0, 4, 18]);
                self.say_at(time, What::Release(name, cause));
            }
        }
    }

    /// Every character of an APN, every cause, the edges of a QoS event.
    pub fn other_fields(&mut self) {
        for value in 0..=255u8 {
            if self.node.active() == SLOTS {
                let name = self.active_name().unwrap();
                self.release(name);
            }
            let name = self.free_name();
            let mut start = self.start();
            let at = self.random.below(start.apn.len() as u64) as usize;
            start.apn[at] = value;
            self.say(What::Activate(name, Box::new(start)));
        }
        for value in 0..=255u8 {
            if let Some(name) = self.active_name() {
                self.say(What::Release(name, value));
            } else {
                self.activate();
            }
        }
        for at in 0..5 {
            for value in [0, QOS_HIGHEST[at], QOS_HIGHEST[at] + 1, 255] {
                if self.node.active() == 0 {
                    self.activate();
                }
                if let Some(name) = self.active_name() {
                    let mut qos = self.qos();
                    qos[at] = value;
                    self.say(What::Qos(name, qos));
                }
            }
        }
    }

    /// Kinds and marks, each with a fitting rest.
    pub fn heads(&mut self) {
        for kind in [0, 13, 14, 128, 254, 255] {
            for rest in [event::TICK, event::ATTACH, event::DETACH, event::REPLACE] {
                let mut event = self.shape(rest, false);
                event[2] = kind;
                self.call(&event, ROOM);
            }
        }
        for mark in [[0xC3, 0x5A], [0x5E, 0xC3], [0xC3, 0x5F], [0xC2, 0x5E], [0, 0]] {
            let mut event = self.shape(event::TARIFF, false);
            event[..2].copy_from_slice(&mark);
            self.call(&event, ROOM);
        }
    }
}
