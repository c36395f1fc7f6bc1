//! The names and the places of subscribers: IMSIs that are attached, and ones
//! that are not; LAC and RAC.

use crate::run::Run;
use charging_model::event::imsi_digits;
use charging_model::subscriber::{Imsi, Place};

const LACS: [u16; 8] = [0, 1, 0x007F, 0x0080, 0x00FF, 0x0100, 0x8000, 0xFFFF];
const RACS: [u8; 5] = [0, 1, 0x7F, 0x80, 0xFF];

/// An IMSI with this half (0 to 15) set.
fn with_half(mut imsi: Imsi, half: usize, value: u8) -> Imsi {
    let octet = &mut imsi[half / 2];
    *octet = if half % 2 == 0 { *octet & 0xF0 | value } else { *octet & 15 | value << 4 };
    imsi
}

impl Run {
    pub fn attached_imsis(&self) -> Vec<Imsi> {
        self.node.subscribers.iter().flatten().map(|s| s.imsi).collect()
    }

    pub fn attached_imsi(&mut self) -> Option<Imsi> {
        let imsis = self.attached_imsis();
        (!imsis.is_empty()).then(|| self.random.pick(&imsis))
    }

    /// An IMSI that is near another one: its last digit is another, or it has
    /// one digit less or more and is else the same.
    fn near_imsi(&mut self, imsi: Imsi) -> Imsi {
        let digits = imsi_digits(&imsi);
        let digit = self.random.below(10) as u8;
        match self.random.below(3) {
            0 if digits > 6 => with_half(imsi, digits - 1, 15),
            1 if digits < 15 => with_half(imsi, digits, digit),
            _ => with_half(imsi, digits - 1, digit),
        }
    }

    /// The IMSI of a context, if there is one.
    fn imsi_of_context(&mut self) -> Option<Imsi> {
        let name = self.active_name()?;
        let slot = self.node.find(name)?;
        Some(self.node.slots[slot].as_ref().unwrap().start.imsi)
    }

    fn any_imsi(&mut self) -> Imsi {
        let digits = match self.random.below(3) {
            0 => self.random.pick(&[6, 7, 14, 15]),
            _ => self.random.between(6, 15) as usize,
        };
        self.imsi(digits)
    }

    /// An IMSI that is not attached: a detached one, one that is near an
    /// attached one, a context's, or any.
    pub fn free_imsi(&mut self) -> Imsi {
        loop {
            let imsi = match self.random.below(4) {
                0 if !self.detached.is_empty() => {
                    let last = self.detached.len().min(40);
                    let at = self.random.below(last as u64) as usize;
                    self.detached[self.detached.len() - 1 - at]
                }
                1 => match self.attached_imsi() {
                    Some(imsi) => self.near_imsi(imsi),
                    None => self.any_imsi(),
                },
                2 => match self.imsi_of_context() {
                    Some(imsi) => imsi,
                    None => self.any_imsi(),
                },
                _ => self.any_imsi(),
            };
            if self.node.find_subscriber(imsi).is_none() {
                return imsi;
            }
        }
    }

    pub fn any_place(&mut self) -> Place {
        let lac = match self.random.percent(70) {
            true => self.random.pick(&LACS),
            false => self.random.next() as u16,
        };
        let rac = match self.random.percent(70) {
            true => self.random.pick(&RACS),
            false => self.random.octet(),
        };
        Place { lac, rac }
    }

    /// A place that differs in LAC alone, in RAC alone, or in both.
    pub fn other_place(&mut self, old: Place) -> Place {
        let mut place = old;
        while place == old {
            let any = self.any_place();
            place = match self.random.below(5) {
                0 => Place { lac: any.lac, ..old },
                1 => Place { rac: any.rac, ..old },
                2 => Place { lac: old.lac ^ 1 << self.random.below(16), ..old },
                3 => Place { rac: old.rac ^ 1 << self.random.below(8), ..old },
                _ => any,
            };
        }
        place
    }

    /// Where a subscriber may go: to another place, to the same one, back to
    /// the one before, to the one at the opening, to another subscriber's.
    pub fn next_place(&mut self, imsi: Imsi) -> Place {
        let Some(at) = self.node.find_subscriber(imsi) else { return self.any_place() };
        let subscriber = self.node.subscribers[at].as_ref().unwrap();
        let (now, opening) = (subscriber.place_in_force(), subscriber.place);
        let count = subscriber.changes.len();
        let before = if count > 1 { subscriber.changes[count - 2].place } else { opening };
        match self.random.below(20) {
            0..=2 => now,
            3..=5 => before,
            6 => opening,
            7 => {
                let other = self.attached_imsi().unwrap();
                let at = self.node.find_subscriber(other).unwrap();
                self.node.subscribers[at].as_ref().unwrap().place_in_force()
            }
            _ => self.other_place(now),
        }
    }
}
