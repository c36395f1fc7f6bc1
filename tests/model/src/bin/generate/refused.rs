//! Events that are refused, most of them.

use crate::run::{Run, ROOM};
use charging_model::clock::LAST_SECOND;
use charging_model::event::{self, octets, What, QOS_HIGHEST};

impl Run {
    /// A valid event of a kind, for a name that is there or not; a replacement
    /// of the next edition, or of another set or edition.
    pub fn shape(&mut self, kind: u8, wrong_name: bool) -> Vec<u8> {
        if event::of_subscriber(kind) {
            return self.shape_of_subscriber(kind, wrong_name);
        }
        if kind == event::REPLACE {
            return self.shape_of_replacement(wrong_name);
        }
        let active = self.active_name();
        let name = match (kind == event::ACTIVATE) != wrong_name {
            false if active.is_some() => active.unwrap(),
            _ => self.free_name(),
        };
        let time = self.time();
        let what = match kind {
            event::ACTIVATE => What::Activate(name, Box::new(self.start())),
            event::TRAFFIC => What::Traffic(
                name,
                self.random.sized(u32::MAX.into()) as u32,
                self.random.next() as u32,
            ),
            event::QOS => What::Qos(name, self.qos()),
            event::TARIFF => What::Tariff,
            event::RELEASE => What::Release(name, self.random.pick(&[0, 4, 18])),
            event::TICK => What::Tick,
            _ => What::Management(name),
        };
        octets(time, &what)
    }

    /// The same of the kinds 8 to 11.
    fn shape_of_subscriber(&mut self, kind: u8, wrong_name: bool) -> Vec<u8> {
        let attached = self.attached_imsi();
        let imsi = match (kind == event::ATTACH) != wrong_name {
            false if attached.is_some() => attached.unwrap(),
            _ => self.free_imsi(),
        };
        let what = match kind {
            event::ATTACH => What::Attach(imsi, self.any_place()),
            event::LOCATION => What::Location(imsi, self.next_place(imsi)),
            event::SUBSCRIBER_MANAGEMENT => What::SubscriberManagement(imsi),
            _ => What::Detach(imsi, self.random.pick(&[0, 4])),
        };
        octets(self.time(), &what)
    }

    fn shape_of_replacement(&mut self, wrong: bool) -> Vec<u8> {
        let set = self.some_set();
        let limits = self.next_limits(set);
        let what = self.replacement(set, limits);
        let mut event = octets(self.time(), &what);
        if wrong {
            self.spoil_set(&mut event);
        }
        event
    }

    /// One half of an IMSI is no digit.
    fn spoil_half(&mut self, imsi: &mut [u8]) {
        let half = self.random.below(16);
        let value = self.random.between(10, 15) as u8;
        let octet = &mut imsi[half as usize / 2];
        *octet = if half % 2 == 0 { *octet & 0xF0 | value } else { *octet & 15 | value << 4 };
    }

    /// An IMSI that is none, of each sort; seldom it is one all the same.
    pub fn spoil_imsi(&mut self, imsi: &mut [u8]) {
        match self.random.below(4) {
            0 | 1 => {
                let digits = self.random.pick(&[0, 1, 5, 16]);
                imsi.copy_from_slice(&self.imsi(digits));
            }
            2 => self.spoil_half(imsi),
            _ => {
                // a digit after an F
                let digits = self.random.between(6, 14) as usize;
                imsi.copy_from_slice(&self.imsi(digits));
                imsi[7] = imsi[7] & 0x0F | 0x10;
            }
        }
    }

    fn spoil_subscriber(&mut self, event: &mut [u8]) {
        if event::kind(event) == event::DETACH && self.random.percent(60) {
            event[15] = match self.random.below(3) {
                0 => self.random.octet(),
                _ => self.random.pick(&[1, 2, 3, 5, 16, 17, 18, 19, 20, 128, 255]),
            };
        } else {
            self.spoil_imsi(&mut event[7..15]);
        }
    }

    pub fn spoil_field(&mut self, event: &mut [u8]) {
        let kind = event::kind(event);
        if event::of_subscriber(kind) {
            return self.spoil_subscriber(event);
        }
        let qos_at = if kind == event::ACTIVATE { 30 } else { 15 };
        match kind {
            event::ACTIVATE if self.random.percent(70) => match self.random.below(4) {
                0 => event[15] = self.random.pick(&[4, 5, 128, 255]),
                1 => {
                    let digits = self.random.pick(&[0, 1, 5, 16]);
                    event[16..24].copy_from_slice(&self.imsi(digits));
                }
                2 => self.spoil_half(&mut event[16..24]),
                _ => {
                    let at = self.random.between(37, event.len() as u64 - 1) as usize;
                    event[at] = self.random.octet();
                }
            },
            event::ACTIVATE | event::QOS => {
                let at = self.random.below(5) as usize;
                let high = QOS_HIGHEST[at];
                event[qos_at + at] = self.random.pick(&[high + 1, high + 2, 128, 255]);
            }
            event::RELEASE => event[15] = self.random.octet(),
            event::REPLACE => {
                let What::Replace(set, mut next) = event::what(event) else { return };
                next.limits = self.limits_out_of_range(next.limits);
                event.copy_from_slice(&octets(event::time(event), &What::Replace(set, next)));
            }
            _ => {}
        }
    }

    /// A time above the last second or, mostly, before the clock.
    pub fn bad_time(&mut self) -> u32 {
        let clock = self.node.clock;
        match self.random.below(6) {
            0 => LAST_SECOND + 1,
            1 => u32::MAX,
            2 => self.random.between(u64::from(LAST_SECOND) + 1, u32::MAX.into()) as u32,
            3 => 0,
            4 => self.random.below(u64::from(clock) + 1) as u32,
            _ => clock.saturating_sub(1),
        }
    }

    pub fn spoil_time(&mut self, event: &mut [u8]) {
        let time = self.bad_time();
        event[3..7].copy_from_slice(&time.to_be_bytes());
    }

    /// An event with any mixture of faults; some of these are taken all the
    /// same.
    pub fn bad(&mut self) {
        let kind = match self.random.between(0, 7) as u8 {
            0 => event::REPLACE,
            kind => kind,
        };
        self.bad_of(kind);
    }

    /// The same of a subscriber.
    pub fn bad_of_subscriber(&mut self) {
        let kind = self.random.between(event::ATTACH.into(), event::DETACH.into()) as u8;
        self.bad_of(kind);
    }

    fn bad_of(&mut self, kind: u8) {
        let wrong_name = self.random.percent(35);
        let mut event = self.shape(kind, wrong_name);
        let mut room = if self.random.percent(50) { ROOM } else { 0 };
        if self.random.percent(25) {
            self.spoil_field(&mut event);
        }
        if self.random.percent(15) {
            self.spoil_set(&mut event);
        }
        if self.random.percent(25) {
            self.spoil_time(&mut event);
        }
        if self.random.percent(15) {
            match self.random.below(4) {
                0 => event.push(self.random.octet()),
                1 => {
                    event.pop();
                }
                2 => event.truncate(self.random.below(event.len() as u64) as usize),
                _ => {
                    let more = self.random.between(0, 300 - event.len() as u64);
                    event.extend((0..more).map(|at| at as u8));
                }
            }
        }
        if event.len() > 36 && kind == event::ACTIVATE && self.random.percent(10) {
            event[36] = self.random.pick(&[0, 1, 63, 64, 128, 255]);
        }
        if event.len() > 2 && self.random.percent(10) {
            event[2] = self.random.pick(&[0, 8, 9, 10, 11, 12, 13, 128, 255, 1, 2, 5]);
        }
        if !event.is_empty() && self.random.percent(15) {
            match self.random.below(4) {
                0 => event[0] ^= 1 << self.random.below(8),
                1 if event.len() > 1 => event[1] = self.random.pick(&[0x5A, 0x5F, 0xC3, 0]),
                2 if event.len() > 1 => event[1] ^= 1 << self.random.below(8),
                _ => event[0] = self.random.octet(),
            }
        }
        if self.random.percent(15) && !event.is_empty() {
            let bit = self.random.below(event.len() as u64 * 8) as usize;
            event[bit / 8] ^= 1 << (bit % 8);
        }
        if self.random.percent(10) {
            room = self.random.below(400) as usize;
        }
        // A tick or tariff far ahead would use the calendar up.
        if self.keeps_pace(&event) {
            self.call(&event, room);
        }
    }
}
