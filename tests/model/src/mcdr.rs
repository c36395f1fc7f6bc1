//! The M-CDR's octets: document 02, W4, and SGSNMMRecord and ChangeLocation of
//! source document 001. "BER facts are shared" with the S-CDR.

use crate::clock::time_stamp;
use crate::record::{field, imsi, integer, ipv4};
use crate::subscriber::{Change, Imsi, Place};

/// A closed M-CDR.
#[derive(Clone, Debug, PartialEq, Eq)]
pub struct Mcdr {
    pub imsi: Imsi,
    pub sgsn: [u8; 4],
    /// "5 and 6 are the place at opening"
    pub place: Place,
    pub changes: Vec<Change>,
    pub opened: u32,
    pub offset: i32,
    /// When it closed: "10 runs to the closing".
    pub closed: u32,
    pub cause: u8,
    pub number: Option<u64>,
    pub node_id: Vec<u8>,
}

/// "OCTET STRING (SIZE(2))": always two octets.
fn lac(place: Place) -> [u8; 2] {
    place.lac.to_be_bytes()
}

/// "OCTET STRING (SIZE(1))": always one octet.
fn rac(place: Place) -> [u8; 1] {
    [place.rac]
}

/// ChangeLocation: 30; 80 LAC; 81 RAC; no cell; 83 time.
fn change(change: &Change, offset: i32) -> Vec<u8> {
    let contents = [
        field(0x80, &lac(change.place)),
        field(0x81, &rac(change.place)),
        field(0x83, &time_stamp(change.time, offset)),
    ]
    .concat();
    field(0x30, &contents)
}

/// "10 runs to the closing"
fn duration(record: &Mcdr) -> u64 {
    u64::from(record.closed - record.opened)
}

/// "Outer A2, type 20, and fields 0, 1, 3, 5, 6, 8 (if not empty), 9, 10, 12,
/// 14, 15"; without the mark.
pub fn octets(record: &Mcdr) -> Vec<u8> {
    let mut inside = field(0x80, &[20]);
    inside.extend(field(0x81, &imsi(&record.imsi)));
    inside.extend(field(0xA3, &ipv4(&record.sgsn)));
    inside.extend(field(0x85, &rac(record.place)));
    inside.extend(field(0x86, &lac(record.place)));
    let changes: Vec<u8> = record.changes.iter().flat_map(|c| change(c, record.offset)).collect();
    if !changes.is_empty() {
        inside.extend(field(0xA8, &changes));
    }
    inside.extend(field(0x89, &time_stamp(record.opened, record.offset)));
    inside.extend(field(0x8A, &integer(duration(record))));
    inside.extend(field(0x8C, &integer(u64::from(record.cause))));
    if let Some(number) = record.number {
        inside.extend(field(0x8E, &integer(number)));
    }
    if !record.node_id.is_empty() {
        inside.extend(field(0x8F, &record.node_id));
    }
    field(0xA2, &inside)
}
