//! A record taken into its fields, and put together again. Here only records
//! that were written whole are taken apart.

use crate::whole::MARK;
use charging_model::record::field;

/// How many octets a tag and a length have.
fn head(value: &[u8]) -> usize {
    match value[1] {
        0x81 => 3,
        0x82 => 4,
        _ => 2,
    }
}

fn length(value: &[u8]) -> usize {
    match value[1] {
        0x81 => value[2].into(),
        0x82 => u16::from_be_bytes([value[2], value[3]]).into(),
        short => short.into(),
    }
}

/// The contents of a record with its mark.
pub fn contents(entry: &[u8]) -> &[u8] {
    &entry[2 + head(&entry[2..])..]
}

/// The contents of a field.
pub fn inside(field: &[u8]) -> &[u8] {
    &field[head(field)..]
}

/// The fields of a record with its mark, each with its tag and length.
pub fn fields(entry: &[u8]) -> Vec<Vec<u8>> {
    let mut left = contents(entry);
    let mut fields = Vec::new();
    while !left.is_empty() {
        let (first, behind) = left.split_at(head(left) + length(left));
        fields.push(first.to_vec());
        left = behind;
    }
    fields
}

/// A record with its mark.
pub fn joined(tag: u8, fields: &[Vec<u8>]) -> Vec<u8> {
    [&MARK[..], &field(tag, &fields.concat())].concat()
}

/// The place of the first field with this tag.
pub fn place_of(fields: &[Vec<u8>], tag: u8) -> Option<usize> {
    fields.iter().position(|field| field[0] == tag)
}
