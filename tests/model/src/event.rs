//! "Events (integers big-endian)": layout and the ranges of the fields. The
//! kinds from 8 on are request W4's, "new events take the next free kinds", and
//! kind 12 is W6's.

use crate::limits::{Limits, Set};
use crate::subscriber::{Imsi, Place};

pub const MARK: [u8; 2] = [0xC3, 0x5E];
/// "the mark C3 5E, a kind, and a 4-octet time: 7 octets"
pub const HEAD: usize = 7;

pub const ACTIVATE: u8 = 1;
pub const TRAFFIC: u8 = 2;
pub const QOS: u8 = 3;
pub const TARIFF: u8 = 4;
pub const RELEASE: u8 = 5;
pub const TICK: u8 = 6;
pub const MANAGEMENT: u8 = 7;
pub const ATTACH: u8 = 8;
pub const LOCATION: u8 = 9;
pub const SUBSCRIBER_MANAGEMENT: u8 = 10;
pub const DETACH: u8 = 11;
pub const REPLACE: u8 = 12;

/// Reliability, delay, precedence, peak, mean.
pub type Qos = [u8; 5];

/// "A context is named by charging ID and GGSN address."
#[derive(Clone, Copy, Debug, PartialEq, Eq, PartialOrd, Ord)]
pub struct Name {
    pub charging_id: u32,
    pub ggsn: [u8; 4],
}

#[derive(Clone, Debug, PartialEq, Eq)]
pub enum What {
    Activate(Name, Box<Start>),
    Traffic(Name, u32, u32),
    Qos(Name, Qos),
    Tariff,
    Release(Name, u8),
    Tick,
    Management(Name),
    Attach(Imsi, Place),
    Location(Imsi, Place),
    SubscriberManagement(Imsi),
    Detach(Imsi, u8),
    /// "an event that names the set and the next edition": the set's number,
    /// and what stands in its place.
    Replace(u8, Set),
}

#[derive(Clone, Debug, PartialEq, Eq)]
pub struct Start {
    pub flags: u8,
    pub imsi: Imsi,
    pub pdp_type: [u8; 2],
    pub address: [u8; 4],
    pub qos: Qos,
    /// W6: "Activation gains one octet naming its set, before n"
    pub set: u8,
    /// As the event spells it; lowered in a context.
    pub apn: Vec<u8>,
}

fn four(octets: &[u8], at: usize) -> [u8; 4] {
    octets[at..at + 4].try_into().unwrap()
}

fn number(octets: &[u8], at: usize) -> u32 {
    u32::from_be_bytes(four(octets, at))
}

pub fn kind(event: &[u8]) -> u8 {
    event[2]
}

pub fn time(event: &[u8]) -> u32 {
    number(event, 3)
}

pub fn name(event: &[u8]) -> Name {
    Name { charging_id: number(event, 7), ggsn: four(event, 11) }
}

/// The kinds of an event: refusal 3 as W4 and W6 read it.
pub fn is_kind(kind: u8) -> bool {
    (1..=12).contains(&kind)
}

/// Kinds 1, 2, 3, 5 and 7 name a context.
pub fn has_name(kind: u8) -> bool {
    matches!(kind, ACTIVATE | TRAFFIC | QOS | RELEASE | MANAGEMENT)
}

/// Kinds 8 to 11 name a subscriber: "subscribers named by IMSI".
pub fn of_subscriber(kind: u8) -> bool {
    (ATTACH..=DETACH).contains(&kind)
}

/// The IMSI of an event that names a subscriber.
pub fn subscriber(event: &[u8]) -> Imsi {
    event[7..15].try_into().unwrap()
}

/// Kinds 1 and 12 name a set of limits.
pub fn has_set(kind: u8) -> bool {
    matches!(kind, ACTIVATE | REPLACE)
}

/// The set of an event that names one; any octet may stand there.
pub fn set(event: &[u8]) -> u8 {
    if kind(event) == ACTIVATE {
        event[35]
    } else {
        event[7]
    }
}

/// The edition of a replacement; any two octets may stand there.
pub fn edition(event: &[u8]) -> u16 {
    u16::from_be_bytes([event[8], event[9]])
}

fn replacement(event: &[u8]) -> Set {
    let limits = Limits {
        volume: u64::from_be_bytes(event[10..18].try_into().unwrap()),
        time: number(event, 18),
        changes: event[22],
    };
    Set { edition: edition(event), limits }
}

/// LAC and RAC, which may be any.
fn place(event: &[u8]) -> Place {
    Place { lac: u16::from_be_bytes([event[15], event[16]]), rac: event[17] }
}

/// The column "Whole length"; nothing for an activate that ends before its n.
/// n counts as it stands here, its range comes under 5.
pub fn whole_length(event: &[u8]) -> Option<usize> {
    match kind(event) {
        ACTIVATE => event.get(36).map(|n| 37 + usize::from(*n)),
        TRAFFIC => Some(23),
        QOS => Some(20),
        TARIFF | TICK => Some(7),
        RELEASE => Some(16),
        MANAGEMENT => Some(15),
        ATTACH | LOCATION => Some(18),
        SUBSCRIBER_MANAGEMENT => Some(15),
        DETACH => Some(16),
        REPLACE => Some(23),
        _ => None,
    }
}

/// "reliability 0..5, delay 0..3, precedence 0..3, peak 0..9, mean 0..18"
pub const QOS_HIGHEST: Qos = [5, 3, 3, 9, 18];

pub fn qos_in_range(qos: &Qos) -> bool {
    qos.iter().zip(QOS_HIGHEST).all(|(value, most)| *value <= most)
}

/// The sixteen halves of an IMSI, "low half first".
fn halves(imsi: &[u8; 8]) -> Vec<u8> {
    imsi.iter().flat_map(|octet| [octet & 15, octet >> 4]).collect()
}

pub fn imsi_digits(imsi: &[u8; 8]) -> usize {
    halves(imsi).iter().take_while(|half| **half <= 9).count()
}

/// "IMSI 6..15 digits, low half first, all later halves F"
pub fn imsi_in_range(imsi: &[u8; 8]) -> bool {
    let digits = imsi_digits(imsi);
    (6..=15).contains(&digits) && halves(imsi)[digits..].iter().all(|half| *half == 15)
}

/// W5: "the name with letters in lower case": A to Z plus 0x20, every other
/// octet as it is.
pub fn lowered(apn: &[u8]) -> Vec<u8> {
    let lower = |c: &u8| match *c {
        b'A'..=b'Z' => *c + 0x20,
        other => other,
    };
    apn.iter().map(lower).collect()
}

/// "APN letters, digits, '.', '-'", the letters in lower case (W5).
pub fn apn_character(c: u8) -> bool {
    matches!(c, b'a'..=b'z' | b'0'..=b'9' | b'.' | b'-')
}

/// "n 1..63", and the characters: an APN as contexts and records have it. That
/// of an event is asked once it is lowered.
pub fn apn_in_range(apn: &[u8]) -> bool {
    (1..=63).contains(&apn.len()) && apn.iter().all(|c| apn_character(*c))
}

/// "flags 0..3"
pub fn flags_in_range(flags: u8) -> bool {
    flags <= 3
}

/// "cause 0, 4 or 18"
pub fn cause_in_range(cause: u8) -> bool {
    matches!(cause, 0 | 4 | 18)
}

/// W4: "detach with 0 or 4"
pub fn detach_cause_in_range(cause: u8) -> bool {
    matches!(cause, 0 | 4)
}

/// All fields but the time, which has a row of its own. "PDP type any"; names,
/// addresses, volumes and places may be anything. Sets and editions have rows
/// of their own too: "a limit out of range is 5".
pub fn fields_in_range(event: &[u8]) -> bool {
    match what(event) {
        What::Activate(_, start) => {
            flags_in_range(start.flags)
                && imsi_in_range(&start.imsi)
                && qos_in_range(&start.qos)
                && apn_in_range(&lowered(&start.apn))
        }
        What::Qos(_, qos) => qos_in_range(&qos),
        What::Release(_, cause) => cause_in_range(cause),
        What::Traffic(..) | What::Tariff | What::Tick | What::Management(_) => true,
        What::Attach(imsi, _) => imsi_in_range(&imsi),
        What::Location(imsi, _) => imsi_in_range(&imsi),
        What::SubscriberManagement(imsi) => imsi_in_range(&imsi),
        What::Detach(imsi, cause) => imsi_in_range(&imsi) && detach_cause_in_range(cause),
        What::Replace(_, next) => next.limits.in_range(),
    }
}

/// "An event is one of these seven", of W4's four, or W6's: of an event of the
/// right length.
pub fn what(event: &[u8]) -> What {
    match kind(event) {
        ACTIVATE => What::Activate(
            name(event),
            Box::new(Start {
                flags: event[15],
                imsi: event[16..24].try_into().unwrap(),
                pdp_type: [event[24], event[25]],
                address: four(event, 26),
                qos: event[30..35].try_into().unwrap(),
                set: set(event),
                apn: event[37..].to_vec(),
            }),
        ),
        TRAFFIC => What::Traffic(name(event), number(event, 15), number(event, 19)),
        QOS => What::Qos(name(event), event[15..20].try_into().unwrap()),
        TARIFF => What::Tariff,
        RELEASE => What::Release(name(event), event[15]),
        TICK => What::Tick,
        MANAGEMENT => What::Management(name(event)),
        ATTACH => What::Attach(subscriber(event), place(event)),
        LOCATION => What::Location(subscriber(event), place(event)),
        SUBSCRIBER_MANAGEMENT => What::SubscriberManagement(subscriber(event)),
        DETACH => What::Detach(subscriber(event), event[15]),
        REPLACE => What::Replace(set(event), replacement(event)),
        other => panic!("kind {other} after row 3"),
    }
}

fn kind_of(what: &What) -> u8 {
    match what {
        What::Activate(..) => ACTIVATE,
        What::Traffic(..) => TRAFFIC,
        What::Qos(..) => QOS,
        What::Tariff => TARIFF,
        What::Release(..) => RELEASE,
        What::Tick => TICK,
        What::Management(_) => MANAGEMENT,
        What::Attach(..) => ATTACH,
        What::Location(..) => LOCATION,
        What::SubscriberManagement(_) => SUBSCRIBER_MANAGEMENT,
        What::Detach(..) => DETACH,
        What::Replace(..) => REPLACE,
    }
}

/// The name of a context or of a subscriber, where the event has one.
fn put_name(event: &mut Vec<u8>, what: &What) {
    match what {
        What::Activate(name, _)
        | What::Traffic(name, ..)
        | What::Qos(name, _)
        | What::Release(name, _)
        | What::Management(name) => {
            event.extend_from_slice(&name.charging_id.to_be_bytes());
            event.extend_from_slice(&name.ggsn);
        }
        What::Attach(imsi, _)
        | What::Location(imsi, _)
        | What::SubscriberManagement(imsi)
        | What::Detach(imsi, _) => event.extend_from_slice(imsi),
        What::Tariff | What::Tick | What::Replace(..) => {}
    }
}

fn put_start(event: &mut Vec<u8>, start: &Start) {
    event.push(start.flags);
    event.extend_from_slice(&start.imsi);
    event.extend_from_slice(&start.pdp_type);
    event.extend_from_slice(&start.address);
    event.extend_from_slice(&start.qos);
    event.push(start.set);
    event.push(start.apn.len() as u8);
    event.extend_from_slice(&start.apn);
}

fn put_replacement(event: &mut Vec<u8>, set: u8, next: &Set) {
    event.push(set);
    event.extend_from_slice(&next.edition.to_be_bytes());
    event.extend_from_slice(&next.limits.volume.to_be_bytes());
    event.extend_from_slice(&next.limits.time.to_be_bytes());
    event.push(next.limits.changes);
}

/// The octets of an event, whatever its fields.
pub fn octets(time: u32, what: &What) -> Vec<u8> {
    let mut event = MARK.to_vec();
    event.push(kind_of(what));
    event.extend_from_slice(&time.to_be_bytes());
    put_name(&mut event, what);
    match what {
        What::Activate(_, start) => put_start(&mut event, start),
        What::Traffic(_, uplink, downlink) => {
            event.extend_from_slice(&uplink.to_be_bytes());
            event.extend_from_slice(&downlink.to_be_bytes());
        }
        What::Qos(_, qos) => event.extend_from_slice(qos),
        What::Release(_, cause) | What::Detach(_, cause) => event.push(*cause),
        What::Attach(_, place) | What::Location(_, place) => {
            event.extend_from_slice(&place.lac.to_be_bytes());
            event.push(place.rac);
        }
        What::Replace(set, next) => put_replacement(&mut event, *set, next),
        What::Tariff | What::Tick | What::Management(_) | What::SubscriberManagement(_) => {}
    }
    event
}
