//! Sound nodes that are reached by events from a fresh node, and events for
//! them.

use crate::breaks::edge;
use crate::stored;
use charging_model::clock::LAST_SECOND;
use charging_model::event::{self, octets, Name, Qos, Start, What, QOS_HIGHEST};
use charging_model::limits::{Limits, Set, LAST_EDITION, MOST_CHANGES, MOST_TIME, MOST_VOLUME};
use charging_model::node::{Context, Node};
use charging_model::profile::Profile;
use charging_model::random::Random;
use charging_model::step::{step, step_of_sound};
use charging_model::subscriber::{Imsi, Place, Subscriber};

/// Room for any output: sixteen records of 1,024 octets with their marks.
pub const ROOM: usize = 16 * (2 + 1024);

const IDS: [u32; 6] = [0, 1, 128, 0x7FFF_FFFF, 0x8000_0000, 0xFFFF_FFFF];
const GGSNS: [[u8; 4]; 4] = [[10, 0, 0, 2], [0, 0, 0, 0], [255, 255, 255, 255], [2, 0, 0, 10]];

/// The limits of a set.
pub fn any_limits(random: &mut Random) -> Limits {
    Limits {
        volume: match random.below(12) {
            0 => 1,
            1 => 2,
            2 => MOST_VOLUME - 1,
            3..=5 => MOST_VOLUME,
            6 => 1 << 32,
            _ => random.sized(MOST_VOLUME).max(100),
        },
        time: match random.below(6) {
            0 => 1,
            1 => MOST_TIME,
            2 => MOST_TIME - 1,
            _ => random.sized(MOST_TIME.into()).max(1) as u32,
        },
        changes: match random.below(10) {
            0 => 1,
            1 => 2,
            2..=4 => MOST_CHANGES,
            5 => MOST_CHANGES - 1,
            _ => random.between(1, MOST_CHANGES.into()) as u8,
        },
    }
}

pub fn profile(random: &mut Random) -> Profile {
    let sets = match random.below(3) {
        0 => random.pick(&[1, 8]),
        _ => random.between(1, 8),
    };
    Profile {
        sgsn: [random.octet(), random.octet(), random.octet(), random.octet()],
        limits: (0..sets).map(|_| any_limits(random)).collect(),
        offset: match random.below(6) {
            0 => -720,
            1 => 840,
            2 => 0,
            _ => random.between(0, 1560) as i32 - 720,
        },
        node_id: {
            let length = match random.below(5) {
                0 => 0,
                1 => 20,
                2 => 19,
                _ => random.between(0, 20),
            };
            (0..length).map(|_| node_id_character(random)).collect()
        },
    }
}

pub fn node_id_character(random: &mut Random) -> u8 {
    match random.below(8) {
        0 => 0x20,
        1 => 0x7E,
        _ => random.between(0x20, 0x7E) as u8,
    }
}

/// Of an APN as it is stored.
pub fn apn_character(random: &mut Random) -> u8 {
    match random.below(4) {
        0 => random.pick(b"0189.-"),
        1 => random.pick(b"az"),
        _ => random.between(b'a'.into(), b'z'.into()) as u8,
    }
}

/// A letter as a capital, one time in two.
pub fn raised(random: &mut Random, octet: u8) -> u8 {
    if random.percent(50) {
        octet.to_ascii_uppercase()
    } else {
        octet
    }
}

/// An APN as an event spells it: in half of the names letters may be capitals.
fn apn(random: &mut Random, length: usize) -> Vec<u8> {
    let capitals = random.percent(50);
    let mut apn = vec![0; length];
    for c in &mut apn {
        *c = apn_character(random);
        if capitals {
            *c = raised(random, *c);
        }
    }
    apn
}

pub fn imsi(random: &mut Random, digits: usize) -> [u8; 8] {
    let mut imsi = [0xFF; 8];
    for half in 0..digits {
        let digit = random.pick(&[0, 1, 5, 8, 9]);
        let octet = &mut imsi[half / 2];
        *octet = if half % 2 == 0 { *octet & 0xF0 | digit } else { *octet & 15 | digit << 4 };
    }
    imsi
}

pub fn qos(random: &mut Random) -> Qos {
    QOS_HIGHEST.map(|most| match random.below(3) {
        0 => 0,
        1 => most,
        _ => random.between(0, most.into()) as u8,
    })
}

pub fn name(random: &mut Random) -> Name {
    Name { charging_id: random.pick(&IDS), ggsn: random.pick(&GGSNS) }
}

/// A set that a node with so many has, or seldom one that it does not have.
pub fn set(random: &mut Random, sets: usize, unknown: u64) -> u8 {
    if random.percent(unknown) {
        return random.pick(&[0, sets as u8 + 1, 9, 128, 255]);
    }
    edge(random, 1, sets + 1) as u8
}

pub fn start(random: &mut Random, sets: usize) -> Start {
    let digits = random.pick(&[6, 6, 7, 8, 11, 14, 15, 15]);
    let length = match random.below(5) {
        0 => 1,
        1 => 63,
        2 => 62,
        _ => random.between(1, 63) as usize,
    };
    Start {
        flags: random.below(4) as u8,
        imsi: imsi(random, digits),
        pdp_type: [random.octet(), random.octet()],
        address: [random.octet(), random.octet(), random.octet(), random.octet()],
        qos: qos(random),
        set: set(random, sets, 4),
        apn: apn(random, length),
    }
}

/// Two volumes, often such that the limit is just met or just missed.
pub fn volumes(random: &mut Random, context: &Context) -> (u32, u32) {
    let most = u64::from(u32::MAX);
    let left = context.limits.volume.saturating_sub(context.record_volume());
    let sum = match random.below(8) {
        0 => 0,
        1 => left,
        2 | 3 => left.saturating_sub(1),
        4 => most * 2,
        _ => random.sized(left / 4),
    };
    let sum = sum.min(most * 2);
    let uplink = random.between(sum.saturating_sub(most), sum.min(most));
    (uplink as u32, (sum - uplink) as u32)
}

/// Another profile, often one that differs in one level alone.
pub fn other_qos(random: &mut Random, old: Qos) -> Qos {
    let mut new = old;
    let at = random.below(5) as usize;
    new[at] = if new[at] == 0 { 1 } else { new[at] - 1 };
    if random.percent(50) {
        new
    } else {
        qos(random)
    }
}

pub fn active(random: &mut Random, node: &Node) -> Option<Context> {
    let active: Vec<&Context> = node.slots.iter().flatten().collect();
    (!active.is_empty()).then(|| active[random.below(active.len() as u64) as usize].clone())
}

// ---- sets of limits ----

/// An edition that may be in force, the first and the last more often.
fn edition(random: &mut Random) -> u16 {
    match random.below(6) {
        0 | 1 => 1,
        2 => random.pick(&[2, 127, 128, 254, 255, 256, 32_767, 32_768]),
        3 => LAST_EDITION - random.below(3) as u16,
        _ => random.between(1, LAST_EDITION.into()) as u16,
    }
}

/// The next limits of a set: any, its own but for one, or such that an open
/// record has counted as much already.
fn next_limits(random: &mut Random, node: &Node, set: u8) -> Limits {
    let any = any_limits(random);
    let Some(old) = node.set(set).map(|set| set.limits) else { return any };
    let of_set = |context: &&Context| context.start.set == set;
    match (random.below(6), node.slots.iter().flatten().find(of_set)) {
        (0, _) => Limits { volume: old.volume.max(2) - 1, ..old },
        (1, _) => Limits { changes: any.changes, ..old },
        (2, _) => Limits { time: any.time, ..old },
        (3 | 4, Some(context)) => Limits {
            volume: context.record_volume().clamp(1, MOST_VOLUME),
            time: (node.clock - context.opened).clamp(1, MOST_TIME),
            changes: (context.changes as u8).clamp(1, MOST_CHANGES),
        },
        _ => any,
    }
}

/// One limit is zero or one too high.
fn out_of_range(random: &mut Random, limits: &mut Limits) {
    match random.below(6) {
        0 => limits.volume = 0,
        1 => limits.volume = MOST_VOLUME + 1,
        2 => limits.time = 0,
        3 => limits.time = MOST_TIME + 1,
        4 => limits.changes = 0,
        _ => limits.changes = MOST_CHANGES + 1,
    }
}

/// A replacement, most of them of a set that the node has by its next edition.
pub fn replacement(random: &mut Random, node: &Node) -> What {
    let set = set(random, node.sets.len(), 10);
    let now = node.set(set).map_or(1, |set| set.edition);
    let edition = match random.below(20) {
        0 => now,
        1 => now.wrapping_add(2),
        2 => now.wrapping_sub(1),
        3 => random.pick(&[0, 1, 65_535]),
        4 => now.wrapping_add(1) ^ 0x100,
        _ => now.wrapping_add(1),
    };
    let mut limits = next_limits(random, node, set);
    if random.percent(15) {
        out_of_range(random, &mut limits);
    }
    What::Replace(set, Set { edition, limits })
}

// ---- subscribers ----

const LACS: [u16; 4] = [0, 1, 0x0100, 0xFFFF];
const RACS: [u8; 3] = [0, 1, 0xFF];

/// So few that names are met again, and some begin others.
pub fn subscriber_name(random: &mut Random) -> Imsi {
    let digits = random.pick(&[6, 6, 7, 8, 14, 15, 15]);
    let mut imsi = imsi(random, digits);
    // no half but the last ones differ in most
    if random.percent(70) {
        imsi[0] = 0x21;
        imsi[1] = 0x43;
    }
    imsi
}

pub fn place(random: &mut Random) -> Place {
    Place { lac: random.pick(&LACS), rac: random.pick(&RACS) }
}

/// A place that differs from another in LAC, in RAC or in both.
pub fn other_place(random: &mut Random, old: Place) -> Place {
    match random.below(4) {
        0 => Place { lac: old.lac ^ 1 << random.below(16), ..old },
        1 => Place { rac: old.rac ^ 1 << random.below(8), ..old },
        _ => {
            let place = place(random);
            if place == old {
                Place { lac: !old.lac, rac: !old.rac }
            } else {
                place
            }
        }
    }
}

/// The same of a stored one.
pub fn another_place(random: &mut Random, old: stored::Place) -> stored::Place {
    stored::Place::store(other_place(random, Place { lac: old.lac, rac: old.rac }))
}

pub fn attached(random: &mut Random, node: &Node) -> Option<Subscriber> {
    let attached: Vec<&Subscriber> = node.subscribers.iter().flatten().collect();
    (!attached.is_empty()).then(|| attached[random.below(attached.len() as u64) as usize].clone())
}

/// Who may attach: sometimes an IMSI that a context has.
fn newcomer(random: &mut Random, node: &Node) -> Imsi {
    match active(random, node) {
        Some(context) if random.percent(20) => context.start.imsi,
        _ => subscriber_name(random),
    }
}

/// What a subscriber may do next; the share of those that attach.
fn next_of_subscriber(random: &mut Random, node: &Node, attaching: u64) -> What {
    let Some(subscriber) = attached(random, node).filter(|_| !random.percent(attaching)) else {
        return What::Attach(newcomer(random, node), place(random));
    };
    let imsi = subscriber.imsi;
    match random.below(100) {
        0..=84 => What::Location(imsi, other_place(random, subscriber.place_in_force())),
        85..=89 => What::Location(imsi, subscriber.place_in_force()),
        90..=95 => What::SubscriberManagement(imsi),
        _ => What::Detach(imsi, random.pick(&[0, 4])),
    }
}

/// An event of a subscriber for a node, as `event` has those of contexts.
fn event_of_subscriber(random: &mut Random, node: &Node) -> What {
    match attached(random, node) {
        Some(subscriber) if random.percent(75) => {
            let imsi = subscriber.imsi;
            match random.below(12) {
                0..=4 => What::Location(imsi, other_place(random, subscriber.place_in_force())),
                5 => What::Location(imsi, subscriber.place_in_force()),
                6 | 7 => What::SubscriberManagement(imsi),
                8 => What::Attach(imsi, place(random)),
                _ => What::Detach(imsi, random.pick(&[0, 4])),
            }
        }
        _ => {
            let imsi = newcomer(random, node);
            match random.below(6) {
                0 => What::Location(imsi, place(random)),
                1 => What::SubscriberManagement(imsi),
                2 => What::Detach(imsi, random.pick(&[0, 4])),
                _ => What::Attach(imsi, place(random)),
            }
        }
    }
}

// ---- runs and events ----

/// A time from the clock on.
pub fn time(random: &mut Random, node: &Node) -> u32 {
    let left = u64::from(LAST_SECOND.saturating_sub(node.clock));
    let on = match random.below(10) {
        0..=3 => 0,
        4..=6 => 1,
        7 | 8 => random.sized(2000),
        _ => random.sized(left),
    };
    node.clock + on.min(left) as u32
}

/// What may happen next, as sessions go; the share of those that activate.
fn next(random: &mut Random, node: &Node, activating: u64) -> What {
    let Some(context) = active(random, node).filter(|_| !random.percent(activating)) else {
        return match random.below(20) {
            0 => What::Tick,
            1 => What::Tariff,
            2 => replacement(random, node),
            _ => What::Activate(name(random), Box::new(start(random, node.sets.len()))),
        };
    };
    match random.below(100) {
        0..=30 => {
            let (up, down) = volumes(random, &context);
            What::Traffic(context.name, up, down)
        }
        31..=34 => replacement(random, node),
        35..=69 => What::Qos(context.name, other_qos(random, context.qos)),
        70..=73 => What::Qos(context.name, context.qos),
        74..=90 => What::Tariff,
        91 | 92 => What::Tick,
        93..=97 => What::Management(context.name),
        _ => What::Release(context.name, random.pick(&[0, 4, 18])),
    }
}

/// The nodes of a run: one after every few events. Its sets begin with any
/// edition.
pub fn run(random: &mut Random) -> Vec<Node> {
    let mut node = Node::fresh(profile(random));
    for set in &mut node.sets {
        set.edition = edition(random);
    }
    let begin = match random.below(4) {
        0 => 0,
        1 => random.below(3_000_000_000) as u32,
        2 => LAST_SECOND - random.sized(1000) as u32,
        _ => random.sized(1_000_000) as u32,
    };
    let mut nodes = vec![node.clone()];
    let activating = random.pick(&[3, 10, 25, 60, 60]);
    let (roaming, attaching) = random.pick(&[(0, 0), (60, 60), (40, 25), (50, 3), (60, 10)]);
    for round in 0..random.between(8, 120) {
        let what = match random.percent(roaming) {
            true => next_of_subscriber(random, &node, attaching),
            false => next(random, &node, activating),
        };
        let at = match round {
            0 => begin,
            // few jumps, so that records stay open
            _ if random.percent(5) => time(random, &node),
            _ => time(random, &node).min(node.clock.saturating_add(60)),
        };
        node = step(&node, &octets(at, &what), ROOM).node;
        if random.percent(12) {
            nodes.push(node.clone());
        }
    }
    nodes.push(node);
    nodes
}

/// An event for a node, most of them such as a sound node takes.
pub fn event(random: &mut Random, node: &Node) -> Vec<u8> {
    let mut at = time(random, node);
    let what = match active(random, node) {
        _ if random.percent(35) => event_of_subscriber(random, node),
        _ if random.percent(12) => replacement(random, node),
        Some(context) if random.percent(70) => match random.below(13) {
            0..=3 => {
                let (up, down) = volumes(random, &context);
                What::Traffic(context.name, up, down)
            }
            4 => What::Qos(context.name, other_qos(random, context.qos)),
            5 => What::Management(context.name),
            6 | 7 => {
                let met = context.opened.saturating_add(context.limits.time);
                at = met.saturating_sub(random.below(2) as u32).max(node.clock);
                What::Tick
            }
            8 => What::Tariff,
            9 => What::Activate(context.name, Box::new(start(random, node.sets.len()))),
            _ => What::Release(context.name, random.pick(&[0, 4, 18])),
        },
        _ => match random.below(8) {
            0 => What::Tariff,
            1 => What::Tick,
            2 => What::Management(name(random)),
            3 => What::Traffic(name(random), 1, 1),
            _ => What::Activate(name(random), Box::new(start(random, node.sets.len()))),
        },
    };
    let mut event = octets(at, &what);
    // some with two faults, so that the order shows
    while random.percent(15) && event.len() > event::HEAD {
        spoil(random, &mut event, node);
    }
    event
}

/// An activation of a new name with any octet in its APN, most often one at the
/// edge of the letters, or one that a wrong lowering makes a character.
pub fn spelling(random: &mut Random, node: &Node) -> Vec<u8> {
    let name = Name { charging_id: random.next() as u32, ggsn: [4, 3, 2, 1] };
    let mut start = start(random, node.sets.len());
    let at = edge(random, 0, start.apn.len());
    start.apn[at] = match random.percent(70) {
        true => random.pick(b"@AZ[`az{\x0D\x0E\x10\x19\xC1\xE1"),
        false => random.octet(),
    };
    octets(time(random, node), &What::Activate(name, Box::new(start)))
}

/// Makes an event that is refused with one of 1 to 6.
fn spoil(random: &mut Random, event: &mut Vec<u8>, node: &Node) {
    let kind = event::kind(event);
    match random.below(14) {
        0 => event.clear(),
        1 => event.truncate(random.below(7) as usize),
        2 | 7 => event[random.below(2) as usize] ^= 1 << random.below(8),
        3 | 8 => event[2] = random.pick(&[0, 13, 255]),
        4 => event.push(0),
        5 => event[3..7].copy_from_slice(&(LAST_SECOND + 1).to_be_bytes()),
        6 if node.clock > 0 => {
            event[3..7].copy_from_slice(&(node.clock.min(LAST_SECOND) - 1).to_be_bytes());
        }
        _ => spoil_field(random, event, kind),
    }
}

/// A field out of range, where the kind has one that may be.
fn spoil_field(random: &mut Random, event: &mut Vec<u8>, kind: u8) {
    match kind {
        event::QOS if event.len() == 20 => {
            let level = random.below(5) as usize;
            event[15 + level] = QOS_HIGHEST[level] + 1;
        }
        event::DETACH if event.len() == 16 && random.percent(60) => {
            event[15] = random.pick(&[1, 16, 17, 18, 19, 20, 255]);
        }
        event::ATTACH..=event::DETACH if event.len() >= 15 => {
            let digits = random.pick(&[0, 5, 16]);
            event[7..15].copy_from_slice(&imsi(random, digits));
        }
        event::REPLACE if event.len() == 23 => {
            let What::Replace(set, mut next) = event::what(event) else { return };
            out_of_range(random, &mut next.limits);
            *event = octets(event::time(event), &What::Replace(set, next));
        }
        event::RELEASE if event.len() == 16 => event[15] = random.pick(&[1, 16, 17, 255]),
        event::ACTIVATE if event.len() > 37 => match random.below(6) {
            0 => event[15] = 4,
            1 => event[16..24].copy_from_slice(&imsi(random, 5)),
            2 => event[34] = 19,
            3 => {
                event.truncate(37);
                event[36] = 64;
                event.resize(101, b'a');
            }
            4 => {
                event.truncate(38);
                event[36] = 0;
            }
            _ => event[37] = b'_',
        },
        _ => event.push(0),
    }
}

/// A room: all there may be, just enough, one too few, or none.
pub fn room(random: &mut Random, node: &Node, event: &[u8]) -> usize {
    let needed = step_of_sound(node, event, ROOM).output.len();
    match random.below(10) {
        0 => ROOM,
        1 => needed.saturating_sub(1),
        2 => 0,
        3 => random.below(needed as u64 + 1) as usize,
        4 => needed + random.below(40) as usize,
        _ => needed,
    }
}
