//! Access point names: half of them with capitals, half without (02, W5).

use crate::run::Run;

impl Run {
    /// A small letter, the first and the last more often than others.
    fn letter(&mut self) -> u8 {
        match self.random.below(4) {
            0 => b'a',
            1 => b'z',
            _ => self.random.between(b'a'.into(), b'z'.into()) as u8,
        }
    }

    fn without_capitals(&mut self, length: usize) -> Vec<u8> {
        let mut apn = vec![0; length];
        for c in &mut apn {
            *c = match self.random.percent(25) {
                true => self.random.pick(b"0189.-"),
                false => self.letter(),
            };
        }
        apn
    }

    fn capitals_alone(&mut self, length: usize) -> Vec<u8> {
        (0..length).map(|_| self.letter().to_ascii_uppercase()).collect()
    }

    /// Some of the letters as capitals.
    fn raised(&mut self, mut apn: Vec<u8>) -> Vec<u8> {
        for c in &mut apn {
            if self.random.percent(50) {
                *c = c.to_ascii_uppercase();
            }
        }
        apn
    }

    /// A capital and a small letter at least, of two octets or more; in half of
    /// the names one capital alone.
    fn mixed(&mut self, length: usize) -> Vec<u8> {
        let mut apn = self.without_capitals(length);
        if self.random.percent(50) {
            apn = self.raised(apn);
        }
        let at = match self.random.below(4) {
            0 => 0,
            1 => length - 1,
            _ => self.random.below(length as u64) as usize,
        };
        let further = self.random.between(1, length as u64 - 1) as usize;
        apn[at] = self.letter().to_ascii_uppercase();
        apn[(at + further) % length] = self.letter();
        apn
    }

    /// An APN of so many octets: one in two has no capitals, most others both
    /// cases, and some capitals alone.
    pub fn apn(&mut self, length: usize) -> Vec<u8> {
        match self.random.below(20) {
            0..=9 => self.without_capitals(length),
            10..=18 if length > 1 => self.mixed(length),
            _ => self.capitals_alone(length),
        }
    }

    /// The APN of a context, as it is stored or in another spelling.
    pub fn apn_again(&mut self) -> Option<Vec<u8>> {
        let name = self.active_name()?;
        let slot = self.node.find(name)?;
        let apn = self.node.slots[slot].as_ref().unwrap().start.apn.clone();
        match self.random.percent(50) {
            true => Some(apn),
            false => Some(self.raised(apn)),
        }
    }
}
