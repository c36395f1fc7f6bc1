//! The names that are asked for, and others that are near to them.

use charging_model::event::Name;
use charging_model::random::Random;

/// The edges of every width of an INTEGER.
const IDS: [u32; 14] = [
    0,
    1,
    127,
    128,
    255,
    256,
    32_767,
    32_768,
    0x7F_FFFF,
    0x80_0000,
    0xFF_FFFF,
    0x7FFF_FFFF,
    0x8000_0000,
    0xFFFF_FFFF,
];
const GGSNS: [[u8; 4]; 5] =
    [[10, 0, 0, 2], [0, 0, 0, 0], [255, 255, 255, 255], [128, 4, 10, 0], [192, 168, 255, 1]];

fn id(random: &mut Random) -> u32 {
    match random.below(4) {
        0 => random.pick(&IDS),
        1 => random.next() as u32 | 0x8000_0000,
        _ => random.sized(u32::MAX.into()) as u32,
    }
}

fn ggsn(random: &mut Random) -> [u8; 4] {
    match random.percent(40) {
        true => random.pick(&GGSNS),
        false => (random.next() as u32).to_be_bytes(),
    }
}

pub fn any(random: &mut Random) -> Name {
    Name { charging_id: id(random), ggsn: ggsn(random) }
}

/// The same charging ID at another GGSN: often one octet differs.
pub fn other_ggsn(random: &mut Random, name: Name) -> Name {
    let mut other = name;
    while other == name {
        if random.percent(80) {
            let at = random.below(4) as usize;
            other.ggsn[at] = other.ggsn[at].wrapping_add(random.pick(&[1, 0x80, 0xFF]));
        } else {
            other.ggsn = ggsn(random);
        }
    }
    other
}

/// Another charging ID at the same GGSN: often one bit or octet differs.
pub fn other_id(random: &mut Random, name: Name) -> Name {
    let id_of_name = name.charging_id;
    let mut other = name;
    while other == name {
        other.charging_id = match random.below(6) {
            0 => id_of_name ^ 0x8000_0000,
            1 => id_of_name.wrapping_add(random.pick(&[1, 0x100, 0x1_0000, 0xFFFF_FFFF])),
            2 => id_of_name & 0xFF,
            3 => id_of_name >> 8,
            4 => id_of_name ^ 1 << random.below(32),
            _ => id(random),
        };
    }
    other
}

/// Names of which none is this one: near ones and far ones.
pub fn others(random: &mut Random, name: Name, count: u64) -> Vec<Name> {
    let mut all = Vec::new();
    while (all.len() as u64) < count {
        let other = match random.below(3) {
            0 => other_ggsn(random, name),
            1 => other_id(random, name),
            _ => any(random),
        };
        if other != name {
            all.push(other);
        }
    }
    all
}
