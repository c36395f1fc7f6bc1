//! Damage within an S-CDR whose own length is right: the fields 8A, AB and 95
//! and their contents, other fields' lengths, fields left out, doubled, or in
//! another order.

use crate::names;
use crate::parts::{inside, place_of};
use charging_model::event::Name;
use charging_model::random::Random;
use charging_model::record::{field, integer, ipv4};

type Fields = Vec<Vec<u8>>;

pub const SORTS: [&str; 13] = [
    "fields: 8A, AB or 95 is left out",
    "fields: another is left out",
    "fields: 8A twice, the asked one first",
    "fields: 8A twice, the asked one second",
    "fields: AB twice, or 95",
    "fields: in another order",
    "fields: 8A, AB or 95 in another place",
    "fields: odd contents of 8A",
    "fields: odd contents of AB",
    "fields: odd contents of 95",
    "fields: a length of no such form",
    "fields: a length beyond the record's end",
    "fields: a tag or half a length at the record's end",
];

fn any_place(random: &mut Random, fields: &Fields) -> usize {
    random.below(fields.len() as u64) as usize
}

/// A place that is looked at: of 8A, AB, 95, or another field.
fn looked_at(random: &mut Random, fields: &Fields) -> usize {
    let tag = random.pick(&[0x8A, 0xAB, 0x95, 0x83, 0xAF, 0]);
    place_of(fields, tag).unwrap_or_else(|| any_place(random, fields))
}

/// Puts these contents where the field stands, or at the end where there is none.
fn put(fields: &mut Fields, tag: u8, contents: &[u8]) {
    let made = field(tag, contents);
    match place_of(fields, tag) {
        Some(at) => fields[at] = made,
        None => fields.push(made),
    }
}

fn odd_id(random: &mut Random, name: Name) -> Vec<u8> {
    let right = integer(name.charging_id.into());
    let four = name.charging_id.to_be_bytes();
    match random.below(8) {
        0 => Vec::new(),
        1 => [&[0], &right[..]].concat(),
        2 => four.to_vec(),
        3 => [&[0], &four[..]].concat(),
        4 => [&[1], &four[..]].concat(),
        5 => [&[0xFF], &four[..]].concat(),
        6 => [&[1, 0, 0, 0, 0], &four[..]].concat(),
        // without the 00 in front, where there is one
        _ => right.strip_prefix(&[0]).unwrap_or(&[0x80]).to_vec(),
    }
}

fn odd_ggsn(random: &mut Random, name: Name) -> Vec<u8> {
    let right = ipv4(&name.ggsn);
    match random.below(8) {
        0 => Vec::new(),
        1 => name.ggsn.to_vec(),
        2 => right[..5].to_vec(),
        3 => [&right[..], &[0]].concat(),
        4 => field(0x81, &name.ggsn),
        5 => [&[0x80, 0x81, 4], &name.ggsn[..]].concat(),
        6 => [&[0x80, random.octet()], &name.ggsn[..]].concat(),
        _ => [&right[..], &right[..]].concat(),
    }
}

fn odd_number(random: &mut Random) -> Vec<u8> {
    let any = random.next();
    match random.below(12) {
        0 => Vec::new(),
        1 => vec![0],
        2 => vec![0, 7],
        3 => vec![0xFF],
        4 => integer(u64::MAX),
        5 => integer(1 << 63),
        6 => integer(any),
        7 => [&[1], &[0; 8][..]].concat(),
        8 => [&[0x7F], &any.to_be_bytes()[..]].concat(),
        9 => [&[0, 0xFF], &any.to_be_bytes()[..]].concat(),
        10 => any.to_be_bytes().to_vec(),
        _ => vec![random.octet(); random.between(1, 12) as usize],
    }
}

/// A length of no such form before the contents of a field.
fn with_odd_length(random: &mut Random, field: &[u8]) -> Vec<u8> {
    let contents = inside(field);
    let [high, low] = (contents.len() as u16).to_be_bytes();
    let length = match random.below(8) {
        0 => vec![0x80],
        1 => vec![0x81, low & 0x7F],
        2 => vec![0x82, 0, low],
        3 => vec![0x83, 0, high, low],
        4 => vec![0xFF],
        5 => vec![0x81, 0x7F],
        6 => vec![0x82, 0, 0x80],
        _ => vec![random.between(0x83, 0xFE) as u8],
    };
    [&field[..1], &length, contents].concat()
}

/// A length that passes the record's end, by one octet or by many.
fn with_long_length(random: &mut Random, fields: &Fields, at: usize) -> Vec<u8> {
    let contents = inside(&fields[at]);
    let behind: usize = fields[at + 1..].iter().map(Vec::len).sum();
    let more = random.pick(&[1, 1, 2, 100, 0x1000]);
    let length = charging_model::record::length(contents.len() + behind + more);
    [&fields[at][..1], &length, contents].concat()
}

fn doubled(random: &mut Random, fields: &mut Fields, name: Name) {
    let (tag, contents) = match random.percent(50) {
        true => (0xAB, ipv4(&names::other_ggsn(random, name).ggsn)),
        false => (0x95, integer(random.between(1, 1000))),
    };
    let there = place_of(fields, tag).unwrap_or(fields.len());
    let at = (there + random.below(2) as usize).min(fields.len());
    fields.insert(at, field(tag, &contents));
}

fn moved(random: &mut Random, fields: &mut Fields) {
    let at = looked_at(random, fields);
    let one = fields.remove(at);
    let to = random.between(0, fields.len() as u64) as usize;
    fields.insert(to, one);
}

fn shuffled(random: &mut Random, fields: &mut Fields) {
    for at in (1..fields.len()).rev() {
        fields.swap(at, random.between(0, at as u64) as usize);
    }
}

/// Another 8A before the asked one, or behind it.
fn second_id(random: &mut Random, fields: &mut Fields, name: Name, behind: usize) {
    let other = names::other_id(random, name).charging_id;
    let at = place_of(fields, 0x8A).expect("an S-CDR");
    fields.insert(at + behind, field(0x8A, &integer(other.into())));
}

/// Does this sort of damage to the fields of a record of the asked name.
pub fn damage(random: &mut Random, sort: usize, fields: &mut Fields, name: Name) {
    match sort {
        0 => {
            let tag = random.pick(&[0x8A, 0xAB, 0x95]);
            fields.retain(|field| field[0] != tag);
        }
        1 => {
            let at = any_place(random, fields);
            fields.remove(at);
        }
        2 => second_id(random, fields, name, 1),
        3 => second_id(random, fields, name, 0),
        4 => doubled(random, fields, name),
        5 => shuffled(random, fields),
        6 => moved(random, fields),
        7 => put(fields, 0x8A, &odd_id(random, name)),
        8 => put(fields, 0xAB, &odd_ggsn(random, name)),
        9 => put(fields, 0x95, &odd_number(random)),
        10 => {
            let at = looked_at(random, fields);
            fields[at] = with_odd_length(random, &fields[at]);
        }
        11 => {
            let at = looked_at(random, fields);
            fields[at] = with_long_length(random, fields, at);
        }
        _ => {
            let ends: [&[u8]; 6] =
                [&[0x95], &[0x96, 0x81], &[0x95, 0x82, 1], &[0x95, 1], &[0x8A], &[0xFF, 0x80]];
            fields.push(random.pick(&ends).to_vec());
        }
    }
}
