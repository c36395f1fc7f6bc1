//! The cases of `testing counts` and their lines, in the form that
//! docs/FORMATS.md has.

use charging_model::count::{Count, Refused};
use charging_model::event::Name;

/// A name that is asked for, and a list. A window of 0 is the list as a whole.
pub struct Case {
    pub name: Name,
    pub window: usize,
    pub list: Vec<u8>,
}

/// ID, GGSN, W and N.
const HEAD: usize = 12;
/// N has two octets.
pub const MOST_OCTETS: usize = 0xFFFF;

fn two(octets: &[u8], at: usize) -> usize {
    u16::from_be_bytes([octets[at], octets[at + 1]]).into()
}

fn four(octets: &[u8], at: usize) -> [u8; 4] {
    octets[at..at + 4].try_into().unwrap()
}

impl Case {
    pub fn put(&self, to: &mut Vec<u8>) {
        let short = |value: usize| u16::try_from(value).expect("two octets").to_be_bytes();
        to.extend(self.name.charging_id.to_be_bytes());
        to.extend(self.name.ggsn);
        to.extend(short(self.window));
        to.extend(short(self.list.len()));
        to.extend(&self.list);
    }

    /// The case at the front, and how many octets it has; nothing where it is
    /// cut short.
    fn at_front(octets: &[u8]) -> Option<(Case, usize)> {
        let head = octets.get(..HEAD)?;
        let whole = HEAD + two(head, 10);
        let list = octets.get(HEAD..whole)?.to_vec();
        let name = Name { charging_id: u32::from_be_bytes(four(head, 0)), ggsn: four(head, 4) };
        Some((Case { name, window: two(head, 8), list }, whole))
    }
}

/// All cases, and whether a last one is cut short.
pub fn read(octets: &[u8]) -> (Vec<Case>, bool) {
    let mut left = octets;
    let mut cases = Vec::new();
    while !left.is_empty() {
        let Some((case, whole)) = Case::at_front(left) else { return (cases, true) };
        left = &left[whole..];
        cases.push(case);
    }
    (cases, false)
}

/// The line of a case.
pub fn line(answer: &Result<Count, Refused>) -> String {
    match answer {
        Ok(Count { records, number: Some(number) }) => format!("0 {records} {number}\n"),
        Ok(Count { records, number: None }) => format!("0 {records} -\n"),
        Err(Refused { fault, at }) => format!("21 {} {at}\n", fault.word()),
    }
}
