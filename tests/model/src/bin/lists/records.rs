//! Records within the rules, with values of every size.

use charging_model::clock::LAST_SECOND;
use charging_model::event::{Name, Qos, QOS_HIGHEST};
use charging_model::mcdr::Mcdr;
use charging_model::node::{Container, MOST_ACCEPTED, QOS_CHANGE, RECORD_CLOSURE, TARIFF_TIME};
use charging_model::random::Random;
use charging_model::record::Record;
use charging_model::subscriber::{Change, Imsi, Place, CHANGES_OF_A_RECORD};

/// "1..15 containers"
pub const MOST_CONTAINERS: u64 = 15;
/// "number 1..10^15"
pub const MOST_NUMBER: u64 = MOST_ACCEPTED;
/// "volumes below 2^40"
const MOST_VOLUME: u64 = (1 << 40) - 1;
const APN: &[u8] = b"abcdefghijklmnopqrstuvwxyz0123456789.-";

/// How much a record holds.
#[derive(Clone, Copy, PartialEq, Eq)]
pub enum Size {
    /// One container, and nothing that may be left out.
    Least,
    /// One to three containers.
    Small,
    Any,
    /// Fifteen containers, everything as long as it may be.
    Most,
}

/// A number of every width: 1, 10^15 and the edges of octets among them.
pub fn number(random: &mut Random) -> u64 {
    match random.below(8) {
        0 => 1,
        1 => random.pick(&[2, 127, 128, 255, 256, 32_767, 32_768]),
        2 => random.pick(&[MOST_NUMBER, MOST_NUMBER - 1, (1 << 39) - 1, 1 << 39, 1 << 47]),
        _ => random.sized(MOST_NUMBER).max(1),
    }
}

fn imsi(random: &mut Random, size: Size) -> Imsi {
    let digits = match size {
        Size::Least => 6,
        Size::Most => 15,
        _ => random.between(6, 15) as usize,
    };
    let mut halves = [15; 16];
    for half in &mut halves[..digits] {
        *half = random.below(10) as u8;
    }
    let octet = |at: usize| halves[2 * at] | halves[2 * at + 1] << 4;
    std::array::from_fn(octet)
}

fn qos(random: &mut Random) -> Qos {
    QOS_HIGHEST.map(|most| random.between(0, most.into()) as u8)
}

fn text(random: &mut Random, of: &[u8], length: u64) -> Vec<u8> {
    (0..length).map(|_| random.pick(of)).collect()
}

fn apn(random: &mut Random, size: Size) -> Vec<u8> {
    let length = match size {
        Size::Least => 1,
        Size::Small => random.between(1, 12),
        Size::Any => random.between(1, 63),
        Size::Most => 63,
    };
    text(random, APN, length)
}

fn node_id(random: &mut Random, size: Size) -> Vec<u8> {
    let length = match size {
        Size::Least => 0,
        Size::Most => 20,
        _ if random.percent(50) => 0,
        _ => random.between(1, 20),
    };
    let all: Vec<u8> = (0x20..=0x7E).collect();
    text(random, &all, length)
}

fn volume(random: &mut Random, size: Size) -> u64 {
    match size {
        Size::Most => random.between(1 << 39, MOST_VOLUME),
        _ => random.sized(MOST_VOLUME),
    }
}

/// "the last alone with condition 2; times in order from the opening; .. QoS
/// differs from one container to the next .. exactly after condition 0"
fn containers(random: &mut Random, size: Size, opened: u32) -> Vec<Container> {
    let count = match size {
        Size::Least => 1,
        Size::Small => random.between(1, 3),
        Size::Any => random.between(1, MOST_CONTAINERS),
        Size::Most => MOST_CONTAINERS,
    };
    let (mut time, mut in_force) = (opened, qos(random));
    let mut all = Vec::new();
    for at in 1..=count {
        time += random.sized((LAST_SECOND - time).into()) as u32;
        let condition = match at == count {
            true => RECORD_CLOSURE,
            false if size == Size::Most => QOS_CHANGE,
            false => random.pick(&[QOS_CHANGE, TARIFF_TIME]),
        };
        let (uplink, downlink) = (volume(random, size), volume(random, size));
        all.push(Container { qos: in_force, uplink, downlink, condition, time });
        if condition == QOS_CHANGE {
            in_force[0] = (in_force[0] + 1) % (QOS_HIGHEST[0] + 1);
        }
    }
    if size == Size::Most {
        // a duration of five octets
        all.last_mut().unwrap().time = LAST_SECOND;
    }
    all
}

/// "number absent only with 0, 4 or 18, and never 1 with these"
fn cause(random: &mut Random, number: Option<u64>) -> u8 {
    match number {
        None => random.pick(&[0, 4, 18]),
        Some(1) => random.pick(&[16, 17, 19, 20]),
        Some(_) => random.pick(&[0, 4, 16, 17, 18, 19, 20]),
    }
}

fn opened(random: &mut Random, size: Size) -> u32 {
    match size {
        Size::Most => random.below(1_000_000) as u32,
        _ => random.below(u64::from(LAST_SECOND) + 1) as u32,
    }
}

pub fn s_cdr(random: &mut Random, name: Name, number: Option<u64>, size: Size) -> Record {
    let opened = opened(random, size);
    let first = number.unwrap_or(1) == 1;
    Record {
        network_initiated: size == Size::Most || size != Size::Least && random.percent(30),
        imsi: imsi(random, size),
        sgsn: (random.next() as u32).to_be_bytes(),
        name,
        apn: apn(random, size),
        pdp_type: [random.octet(), random.octet()],
        address: (random.next() as u32).to_be_bytes(),
        containers: containers(random, size, opened),
        opened,
        offset: random.between(0, 1560) as i32 - 720,
        // "SGSN change only with number absent or 1"
        sgsn_change: first && (size == Size::Most || size != Size::Least && random.percent(50)),
        cause: cause(random, number),
        number,
        node_id: node_id(random, size),
    }
}

fn place(random: &mut Random) -> Place {
    Place { lac: random.next() as u16, rac: random.octet() }
}

/// How an M-CDR ends: how many changes it has, its cause and its number. "the
/// fifteenth, and only it, is listed and closes with 19"
fn ending(random: &mut Random) -> (usize, u8, Option<u64>) {
    let number = number(random);
    match random.below(8) {
        0 => (CHANGES_OF_A_RECORD, 19, Some(number)),
        1 | 2 => (random.below(3) as usize, 20, Some(number)),
        3 => (random.below(15) as usize, random.pick(&[0, 4]), Some(number.max(2))),
        _ => (random.below(3) as usize, random.pick(&[0, 4]), None),
    }
}

/// Changes in order of their times, each to another place than the one before.
fn changes(random: &mut Random, from: Place, count: usize, times: (u32, u32)) -> Vec<Change> {
    let (mut time, closed) = times;
    let mut all: Vec<Change> = Vec::new();
    for _ in 0..count {
        time += random.sized((closed - time).into()) as u32;
        let mut next = place(random);
        if next == all.last().map_or(from, |change| change.place) {
            next.rac ^= 1;
        }
        all.push(Change { place: next, time });
    }
    all
}

/// An M-CDR of this duration, which is within the clock's range.
pub fn m_cdr(random: &mut Random, duration: u32) -> Mcdr {
    let opened = random.below(u64::from(LAST_SECOND - duration) + 1) as u32;
    let closed = opened + duration;
    let (count, cause, number) = ending(random);
    let from = place(random);
    let mut changes = changes(random, from, count, (opened, closed));
    if cause == 19 {
        // the closing "is at it under 19"
        changes.last_mut().unwrap().time = closed;
    }
    Mcdr {
        imsi: imsi(random, Size::Any),
        sgsn: (random.next() as u32).to_be_bytes(),
        place: from,
        changes,
        opened,
        offset: random.between(0, 1560) as i32 - 720,
        closed,
        cause,
        number,
        node_id: node_id(random, Size::Small),
    }
}
