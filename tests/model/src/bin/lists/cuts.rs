//! Lists that end within a record. Where the records before it are whole, the
//! answer is known: `cut`, at the mark of the record that is torn.

use crate::whole::Whole;
use charging_model::count::{Fault, Refused};
use charging_model::random::Random;

/// Where in a record the list ends.
#[derive(Clone, Copy)]
enum Place {
    Mark,
    Tag,
    Length,
    LengthWithin,
    Contents,
    LastOctet,
}

pub const SORTS: [&str; 6] = [
    "cut within the mark",
    "cut before the tag",
    "cut before the length",
    "cut within the length",
    "cut within the contents",
    "cut before the last octet",
];

const PLACES: [Place; 6] = [
    Place::Mark,
    Place::Tag,
    Place::Length,
    Place::LengthWithin,
    Place::Contents,
    Place::LastOctet,
];

/// How many octets a record's length has.
fn octets_of_length(entry: &[u8]) -> usize {
    match entry[3] {
        0x81 => 2,
        0x82 => 3,
        _ => 1,
    }
}

/// How many octets of a record with its mark are kept; nothing where it has no
/// such place.
fn kept(random: &mut Random, place: Place, entry: &[u8]) -> Option<usize> {
    let octets = octets_of_length(entry);
    match place {
        Place::Mark => Some(1),
        Place::Tag => Some(2),
        Place::Length => Some(3),
        Place::LengthWithin if octets == 1 => None,
        Place::LengthWithin => Some(3 + random.between(1, octets as u64 - 1) as usize),
        Place::Contents => Some(random.between(3 + octets as u64, entry.len() as u64 - 1) as usize),
        Place::LastOctet => Some(entry.len() - 1),
    }
}

/// What sort of cut it is, the octets that are left, and what is to be said of
/// them. Nothing where the list has no record, or none with such a place.
pub fn cut(random: &mut Random, whole: &Whole) -> Option<(&'static str, Vec<u8>, Refused)> {
    let entries = whole.entries();
    if entries.is_empty() {
        return None;
    }
    let sort = random.below(PLACES.len() as u64) as usize;
    let torn = random.below(entries.len() as u64) as usize;
    let kept = kept(random, PLACES[sort], &entries[torn])?;
    let mut list = entries[..torn].concat();
    let at = list.len();
    list.extend(&entries[torn][..kept]);
    Some((SORTS[sort], list, Refused { fault: Fault::Cut, at }))
}
