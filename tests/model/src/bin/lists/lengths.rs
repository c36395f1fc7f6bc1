//! Damage where a step lands: marks, outer tags, outer lengths, and records that
//! are too long.

use crate::parts;
use charging_model::random::Random;
use charging_model::record::field;

pub const LONGEST: &str = "record of 1,024 octets";

pub const SORTS: [&str; 12] = [
    "mark: its first octet is another",
    "mark: its second octet is another",
    "mark: it is missing",
    "tag: another octet",
    "tag: A0 for A2, or A2 for A0",
    "length: indefinite or reserved",
    "length: not the shortest form",
    "length: of four octets or more",
    "length: one or some too many or too few",
    "length: 1,020 and 1,021, whatever is there",
    LONGEST,
    "record of 1,025 octets or more",
];

/// A record with its mark, of which the length is replaced by these octets.
fn with_length(entry: &[u8], length: &[u8]) -> Vec<u8> {
    [&entry[..3], length, parts::contents(entry)].concat()
}

fn another(random: &mut Random, octet: u8) -> u8 {
    let near = [0, 0xFF, 0x5A, 0xC3, 0x5E, octet ^ 1, octet ^ 0x80, octet.wrapping_add(1)];
    loop {
        let other = if random.percent(70) { random.pick(&near) } else { random.octet() };
        if other != octet {
            return other;
        }
    }
}

fn another_tag(random: &mut Random) -> u8 {
    loop {
        let tag = match random.percent(70) {
            true => random.pick(&[0xA1, 0xA3, 0x80, 0x82, 0x20, 0x30, 0xB4, 0xBF, 0, 0xFF]),
            false => random.octet(),
        };
        if !matches!(tag, 0xA0 | 0xA2) {
            return tag;
        }
    }
}

/// A longer form of this length than the shortest.
fn longer(random: &mut Random, length: usize) -> Vec<u8> {
    let [high, low] = (length as u16).to_be_bytes();
    match random.below(5) {
        0 if high == 0 => vec![0x81, low & 0x7F],
        1 if high == 0 => vec![0x82, 0, low],
        2 => vec![0x82, 0, 0x80],
        3 => vec![0x81, 0x7F],
        _ => vec![0x82, 0, 0xFF],
    }
}

fn of_more_octets(random: &mut Random, length: usize) -> Vec<u8> {
    let [high, low] = (length as u16).to_be_bytes();
    match random.below(3) {
        0 => vec![0x83, 0, high, low],
        1 => vec![0x84, 0, 0, high, low],
        _ => vec![random.between(0x83, 0xFE) as u8, high, low],
    }
}

/// The right form of a length that is another.
fn wrong(random: &mut Random, length: usize) -> Vec<u8> {
    let other = match random.below(6) {
        0 => length + 1,
        1 => length - 1,
        2 => length + random.between(2, 300) as usize,
        3 => random.below(length as u64) as usize,
        4 => 0,
        _ => random.between(0, 0xFFFF) as usize,
    };
    charging_model::record::length(other)
}

/// Fields that no record has, of so many octets together, which are two or more.
fn padding(random: &mut Random, octets: usize) -> Vec<Vec<u8>> {
    let mut fields = Vec::new();
    let mut left = octets;
    while left > 0 {
        // never one octet left: a field has two at least
        let whole = if left <= 100 { left } else { 90 };
        fields.push(field(0x9E, &vec![random.octet(); whole - 2]));
        left -= whole;
    }
    fields
}

/// A record of so many octets, made long by fields that no record has.
fn padded(random: &mut Random, entry: &[u8], octets: usize) -> Vec<u8> {
    let mut fields = parts::fields(entry);
    let at = random.between(0, fields.len() as u64) as usize;
    // the outer length is of three octets
    let there: usize = fields.iter().map(Vec::len).sum();
    fields.splice(at..at, padding(random, octets - 4 - there));
    parts::joined(entry[2], &fields)
}

/// A record with this sort of damage.
pub fn damaged(random: &mut Random, sort: usize, entry: &[u8]) -> Vec<u8> {
    let mut changed = entry.to_vec();
    let length = parts::contents(entry).len();
    match sort {
        0 => changed[0] = another(random, 0xC3),
        1 => changed[1] = another(random, 0x5A),
        2 => changed = entry[2..].to_vec(),
        3 => changed[2] = another_tag(random),
        4 => changed[2] ^= 2,
        5 => changed = with_length(entry, &[random.pick(&[0x80, 0xFF])]),
        6 => changed = with_length(entry, &longer(random, length)),
        7 => changed = with_length(entry, &of_more_octets(random, length)),
        8 => changed = with_length(entry, &wrong(random, length)),
        9 => changed = with_length(entry, &[0x82, 3, random.pick(&[0xFC, 0xFD, 0xFE])]),
        10 => changed = padded(random, entry, 1024),
        _ => {
            let octets = match random.percent(60) {
                true => 1025,
                false => random.between(1026, 2_500) as usize,
            };
            changed = padded(random, entry, octets);
        }
    }
    changed
}

/// Beginnings of a record, behind whole ones: what a length that is not whole,
/// or none, is called, hangs on how many octets are left.
pub const TAIL: &str = "a torn or damaged length at the end";

pub fn tail(random: &mut Random) -> Vec<u8> {
    let lengths: [&[u8]; 12] = [
        &[],
        &[0x80],
        &[0x81],
        &[0x82],
        &[0x83],
        &[0xFF],
        &[0x81, 0x7F],
        &[0x81, 0x80],
        &[0x82, 0],
        &[0x82, 1],
        &[0x82, 0xFF],
        &[0x83, 0],
    ];
    let mut octets = vec![0xC3, 0x5A, random.pick(&[0xA0, 0xA2])];
    octets.extend(random.pick(&lengths));
    let more = random.below(4);
    octets.extend((0..more).map(|_| random.pick(&[0, 0x7F, 0x80, 0xFF, 0x8A])));
    octets
}
