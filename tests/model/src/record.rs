//! "The record's octets": the BER writer.

use crate::clock::time_stamp;
use crate::event::{imsi_digits, Name, Qos};
use crate::node::Container;

/// A closed S-CDR.
#[derive(Clone, Debug, PartialEq, Eq)]
pub struct Record {
    pub network_initiated: bool,
    pub imsi: [u8; 8],
    pub sgsn: [u8; 4],
    pub name: Name,
    pub apn: Vec<u8>,
    pub pdp_type: [u8; 2],
    pub address: [u8; 4],
    pub containers: Vec<Container>,
    pub opened: u32,
    pub offset: i32,
    pub sgsn_change: bool,
    pub cause: u8,
    pub number: Option<u64>,
    pub node_id: Vec<u8>,
}

/// "Integers: shortest two's complement." None here is below zero.
pub fn integer(value: u64) -> Vec<u8> {
    let mut octets = value.to_be_bytes().to_vec();
    octets.insert(0, 0);
    while octets.len() > 1 && octets[0] == 0 && octets[1] < 0x80 {
        octets.remove(0);
    }
    octets
}

/// "Lengths: shortest definite form."
pub fn length(value: usize) -> Vec<u8> {
    if value < 0x80 {
        return vec![value as u8];
    }
    if value < 0x100 {
        return vec![0x81, value as u8];
    }
    assert!(value < 0x1_0000);
    vec![0x82, (value >> 8) as u8, value as u8]
}

/// A tag, a length and the contents.
pub fn field(tag: u8, contents: &[u8]) -> Vec<u8> {
    let mut octets = vec![tag];
    octets.extend(length(contents.len()));
    octets.extend_from_slice(contents);
    octets
}

/// "An IPv4 address is 80 04 and four octets."
pub fn ipv4(address: &[u8; 4]) -> Vec<u8> {
    field(0x80, address)
}

/// "83 IMSI, half the digits rounded up, odd ones filled with F": the event
/// has the F there already.
pub fn imsi(imsi: &[u8; 8]) -> Vec<u8> {
    imsi[..imsi_digits(imsi).div_ceil(2)].to_vec()
}

/// "A2 (80..84, one octet each, the QoS)"
fn qos(qos: &Qos) -> Vec<u8> {
    let parts: Vec<u8> = (0x80..).zip(qos).flat_map(|(tag, value)| field(tag, &[*value])).collect();
    field(0xA2, &parts)
}

/// W1: "A later container carries A2 exactly when the one before ended with
/// condition 0"; the first always does.
fn has_qos(before: Option<&Container>) -> bool {
    before.map_or(true, |before| before.condition == 0)
}

/// "A container: 30; A2 ..; 83 uplink; 84 downlink; 85 condition; 86 time."
fn container(before: Option<&Container>, container: &Container, offset: i32) -> Vec<u8> {
    let contents = [
        if has_qos(before) { qos(&container.qos) } else { Vec::new() },
        field(0x83, &integer(container.uplink)),
        field(0x84, &integer(container.downlink)),
        field(0x85, &[container.condition]),
        field(0x86, &time_stamp(container.time, offset)),
    ]
    .concat();
    field(0x30, &contents)
}

/// "8A charging ID"
fn charging_id(id: u32) -> Vec<u8> {
    integer(u64::from(id))
}

/// "95 sequence number"
fn sequence_number(number: u64) -> Vec<u8> {
    integer(number)
}

/// "Duration: last container time minus opening."
fn duration(record: &Record) -> u64 {
    let last = record.containers.last().expect("a closed record has a container");
    u64::from(last.time - record.opened)
}

/// "AE served address, an A0 around it"
fn served_address(address: &[u8; 4]) -> Vec<u8> {
    field(0xA0, &ipv4(address))
}

/// "Outer A0; inside, ascending: .."; without the mark.
pub fn octets(record: &Record) -> Vec<u8> {
    let mut inside = field(0x80, &[18]);
    if record.network_initiated {
        inside.extend(field(0x81, &[0xFF]));
    }
    inside.extend(field(0x83, &imsi(&record.imsi)));
    inside.extend(field(0xA5, &ipv4(&record.sgsn)));
    inside.extend(field(0x8A, &charging_id(record.name.charging_id)));
    inside.extend(field(0xAB, &ipv4(&record.name.ggsn)));
    inside.extend(field(0x8C, &record.apn));
    inside.extend(field(0x8D, &record.pdp_type));
    inside.extend(field(0xAE, &served_address(&record.address)));
    let mut containers = Vec::new();
    let mut before = None;
    for each in &record.containers {
        containers.extend(container(before, each, record.offset));
        before = Some(each);
    }
    inside.extend(field(0xAF, &containers));
    inside.extend(field(0x90, &time_stamp(record.opened, record.offset)));
    inside.extend(field(0x91, &integer(duration(record))));
    if record.sgsn_change {
        inside.extend(field(0x92, &[0xFF]));
    }
    inside.extend(field(0x93, &integer(u64::from(record.cause))));
    if let Some(number) = record.number {
        inside.extend(field(0x95, &sequence_number(number)));
    }
    if !record.node_id.is_empty() {
        inside.extend(field(0x96, &record.node_id));
    }
    field(0xA0, &inside)
}
