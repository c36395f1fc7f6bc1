//! The sessions that document 01 prints.

use crate::run::{Run, ROOM};
use charging_model::event::{octets, Name, Start, What};

impl Run {
    /// Document 01's two sessions, where the profile is its own.
    pub fn printed_sessions(&mut self) {
        let name = Name { charging_id: 1, ggsn: [10, 0, 0, 2] };
        let start = Start {
            flags: 0,
            imsi: [0x00, 0x01, 0x01, 0x21, 0x43, 0x65, 0x87, 0xF9],
            pdp_type: [0xF1, 0x21],
            address: [10, 0, 0, 3],
            qos: [1, 3, 2, 4, 0],
            set: 1,
            apn: b"a".to_vec(),
        };
        let first = [
            (0, What::Activate(name, Box::new(start.clone()))),
            (5, What::Traffic(name, 400, 599)),
            (6, What::Release(name, 0)),
        ];
        let second = [
            (6, What::Activate(name, Box::new(start))),
            (11, What::Traffic(name, 400, 599)),
            (12, What::Traffic(name, 0, 1)),
            (16, What::Tariff),
            (71, What::Tick),
            (72, What::Tick),
            (72, What::Release(name, 0)),
        ];
        for (time, what) in first.iter().chain(&second) {
            self.call(&octets(*time, what), 113);
        }
        // 113 octets were too few for some of these: again, with room.
        for (time, what) in &second {
            self.call(&octets(*time, what), ROOM);
        }
    }
}
