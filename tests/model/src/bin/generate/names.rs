//! The names of the contexts: active ones, and ones that are not.

use crate::run::Run;
use charging_model::event::Name;

const IDS: [u32; 18] = [
    0,
    1,
    127,
    128,
    255,
    256,
    32767,
    32768,
    65535,
    65536,
    0x7F_FFFF,
    0x80_0000,
    0xFF_FFFF,
    0x100_0000,
    0x7FFF_FFFF,
    0x8000_0000,
    0xFFFF_FFFE,
    0xFFFF_FFFF,
];
const GGSNS: [[u8; 4]; 5] =
    [[10, 0, 0, 2], [10, 0, 0, 3], [0, 0, 0, 0], [255, 255, 255, 255], [2, 0, 0, 10]];

impl Run {
    pub fn any_name(&mut self) -> Name {
        let charging_id = if self.random.percent(80) {
            self.random.pick(&IDS)
        } else {
            self.random.next() as u32
        };
        let ggsn = self.random.pick(&GGSNS);
        Name { charging_id, ggsn }
    }

    pub fn active_names(&self) -> Vec<Name> {
        self.node.slots.iter().flatten().map(|c| c.name).collect()
    }

    pub fn active_name(&mut self) -> Option<Name> {
        let names = self.active_names();
        (!names.is_empty()).then(|| self.random.pick(&names))
    }

    /// A name that is not active, a released one or a near one among them.
    pub fn free_name(&mut self) -> Name {
        loop {
            let mut name = match self.random.below(3) {
                0 if !self.released.is_empty() => {
                    let at = self.random.below(self.released.len() as u64) as usize;
                    self.released[at]
                }
                1 if self.node.active() > 0 => self.active_name().unwrap(),
                _ => self.any_name(),
            };
            if self.node.find(name).is_some() {
                match self.random.below(3) {
                    0 => name.charging_id ^= 1 << self.random.below(32),
                    1 => name.ggsn[self.random.below(4) as usize] ^= 1 << self.random.below(8),
                    _ => name.ggsn = self.random.pick(&GGSNS),
                }
            }
            if self.node.find(name).is_none() {
                return name;
            }
        }
    }
}
