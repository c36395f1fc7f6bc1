//! Octets that were no list before: any, records of any fields, and lists with a
//! few octets changed at random.

use crate::names;
use crate::whole::MARK;
use charging_model::event::Name;
use charging_model::random::Random;
use charging_model::record::{field, integer, ipv4};

/// Octets that mean something somewhere in a list.
const TELLING: [u8; 18] = [
    0xC3, 0x5A, 0xA0, 0xA2, 0x8A, 0xAB, 0x95, 0x80, 0x81, 0x82, 0x83, 0x00, 0x01, 0x04, 0x06, 0x7F,
    0xAF, 0xFF,
];

fn telling(random: &mut Random) -> u8 {
    match random.percent(60) {
        true => random.pick(&TELLING),
        false => random.octet(),
    }
}

pub const ANY: &str = "garbage: any octets";
pub const FRAMED: &str = "garbage: any octets behind a mark";
pub const FIELDS: &str = "records of any fields";

/// Octets that mean something by chance, if at all.
pub fn any(random: &mut Random) -> Vec<u8> {
    let length = random.sized(300);
    let all = random.percent(30);
    (0..length).map(|_| if all { random.octet() } else { telling(random) }).collect()
}

/// The same as the contents of records.
pub fn framed(random: &mut Random) -> Vec<u8> {
    let mut list = Vec::new();
    for _ in 0..random.between(1, 3) {
        list.extend(MARK);
        let contents: Vec<u8> = any(random).into_iter().take(127).collect();
        list.extend(field(random.pick(&[0xA0, 0xA0, 0xA0, 0xA2]), &contents));
    }
    list
}

fn any_field(random: &mut Random, name: Name) -> Vec<u8> {
    let other = names::other_id(random, name);
    match random.below(10) {
        0..=2 => field(0x8A, &integer(name.charging_id.into())),
        3 => field(0x8A, &integer(other.charging_id.into())),
        4 | 5 => field(0xAB, &ipv4(&name.ggsn)),
        6 => field(0xAB, &ipv4(&names::other_ggsn(random, name).ggsn)),
        7 => field(0x95, &integer(random.sized(u64::MAX))),
        8 => field(telling(random), &any(random)),
        _ => vec![telling(random), telling(random)],
    }
}

/// Records of the fields that count and of others, in any order.
pub fn fields(random: &mut Random, name: Name) -> Vec<u8> {
    let mut list = Vec::new();
    for _ in 0..random.between(1, 4) {
        let count = random.below(7);
        let contents: Vec<u8> = (0..count).flat_map(|_| any_field(random, name)).collect();
        list.extend(MARK);
        list.extend(field(random.pick(&[0xA0, 0xA0, 0xA0, 0xA2]), &contents));
    }
    list
}

pub const SORTS: [&str; 3] =
    ["octets changed at random", "octets left out at random", "octets put in at random"];

/// A list with a few octets changed, left out or put in.
pub fn changed(random: &mut Random, sort: usize, list: &mut Vec<u8>) {
    for _ in 0..random.between(1, 3) {
        if list.is_empty() {
            return;
        }
        // the front is where most of the octets that are looked at stand
        let within = if random.percent(50) { list.len().min(60) } else { list.len() };
        let at = random.below(within as u64) as usize;
        match sort {
            0 => list[at] = telling(random),
            1 => drop(list.remove(at)),
            _ => list.insert(at, telling(random)),
        }
    }
}
