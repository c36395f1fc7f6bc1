//! Attached subscribers: document 02, W4. Words in quotes are that request's,
//! or 01's where W4 takes them over ("Numbering and the sole-record rule as
//! for S-CDRs").

use crate::event::imsi_in_range;
use crate::mcdr::Mcdr;
use crate::node::Node;
use crate::step::{CHANGES, INTERVENTION};

/// "up to 16 attached subscribers"
pub const SUBSCRIBERS: usize = 16;
/// "the fifteenth, and only it, is listed and closes with 19"
pub const CHANGES_OF_A_RECORD: usize = 15;

/// The sixteen halves as in an event: digits, then F.
pub type Imsi = [u8; 8];

/// Location area code and routing area code.
#[derive(Clone, Copy, Debug, PartialEq, Eq)]
pub struct Place {
    pub lac: u16,
    pub rac: u8,
}

/// "each entry of 8 the place moved to (no cell)", and when.
#[derive(Clone, Copy, Debug, PartialEq, Eq)]
pub struct Change {
    pub place: Place,
    pub time: u32,
}

#[derive(Clone, Debug, PartialEq, Eq)]
pub struct Subscriber {
    /// "named by IMSI"
    pub imsi: Imsi,
    /// Records of this attachment closed so far.
    pub closed: u64,
    /// The open record: "the place at opening", when it opened, its changes.
    pub place: Place,
    pub opened: u32,
    pub changes: Vec<Change>,
}

impl Subscriber {
    /// The place of the last change, or else the one at the opening.
    pub fn place_in_force(&self) -> Place {
        self.changes.last().map_or(self.place, |change| change.place)
    }

    /// What a sound node asks of a subscriber: "as for contexts, with location
    /// changes in place of containers". The profile's offset is not stored
    /// here.
    pub fn sound(&self, clock: u32, accepted: u64) -> bool {
        // fields in range; LAC and RAC are any
        let fields = imsi_in_range(&self.imsi);
        // "closed records below the accepted count"
        let closed = self.closed < accepted;
        // the fifteenth change closes, so that an open record has 14 at most
        let count = self.changes.len() < CHANGES_OF_A_RECORD;
        // "A change to the same place is none, in records and sound nodes too"
        let mut places = vec![self.place];
        places.extend(self.changes.iter().map(|change| change.place));
        let moved = places.windows(2).all(|pair| pair[0] != pair[1]);
        // opening, changes and clock in order
        let mut times = vec![self.opened];
        times.extend(self.changes.iter().map(|change| change.time));
        times.push(clock);
        let in_order = times.windows(2).all(|pair| pair[0] <= pair[1]);
        fields && closed && count && moved && in_order
    }
}

// ---- the table of the node ----

impl Node {
    pub fn find_subscriber(&self, imsi: Imsi) -> Option<usize> {
        self.subscribers.iter().position(|place| match place {
            Some(subscriber) => subscriber.imsi == imsi,
            None => false,
        })
    }

    /// Attaching takes the lowest free place, as activation the lowest slot.
    pub fn lowest_free_place(&self) -> Option<usize> {
        self.subscribers.iter().position(Option::is_none)
    }

    pub fn attached(&self) -> usize {
        self.subscribers.iter().flatten().count()
    }

    /// IMSIs distinct, and each subscriber sound.
    pub fn subscribers_sound(&self) -> bool {
        let imsis: Vec<Imsi> = self.subscribers.iter().flatten().map(|s| s.imsi).collect();
        self.subscribers.len() == SUBSCRIBERS
            && imsis.iter().enumerate().all(|(at, imsi)| !imsis[..at].contains(imsi))
            && self.subscribers.iter().flatten().all(|s| s.sound(self.clock, self.accepted))
    }
}

fn subscriber(node: &mut Node, imsi: Imsi) -> &mut Subscriber {
    let place = node.find_subscriber(imsi).unwrap();
    node.subscribers[place].as_mut().unwrap()
}

// ---- what the events do ----

/// Attaching opens a record now, without changes.
pub fn attach(node: &mut Node, imsi: Imsi, place: Place, now: u32) {
    let free = node.lowest_free_place().unwrap();
    node.subscribers[free] =
        Some(Subscriber { imsi, closed: 0, place, opened: now, changes: Vec::new() });
}

/// "A change to the same place is none ..; the fifteenth, and only it, is
/// listed and closes with 19"
pub fn location_change(node: &mut Node, imsi: Imsi, place: Place, now: u32) -> Option<Mcdr> {
    let subscriber = subscriber(node, imsi);
    if place == subscriber.place_in_force() {
        return None;
    }
    subscriber.changes.push(Change { place, time: now });
    if subscriber.changes.len() < CHANGES_OF_A_RECORD {
        return None;
    }
    Some(close_and_open(node, imsi, CHANGES, now))
}

/// "management closes with 20"
pub fn manage(node: &mut Node, imsi: Imsi, now: u32) -> Mcdr {
    close_and_open(node, imsi, INTERVENTION, now)
}

/// "detach with 0 or 4": the place is free afterwards.
pub fn detach(node: &mut Node, imsi: Imsi, cause: u8, now: u32) -> Mcdr {
    let record = close(node, imsi, cause, now);
    let place = node.find_subscriber(imsi).unwrap();
    node.subscribers[place] = None;
    record
}

/// Except at detach, the next record opens at the same time, at the place then
/// in force.
fn close_and_open(node: &mut Node, imsi: Imsi, cause: u8, now: u32) -> Mcdr {
    let record = close(node, imsi, cause, now);
    let subscriber = subscriber(node, imsi);
    subscriber.closed += 1;
    subscriber.place = subscriber.place_in_force();
    subscriber.opened = now;
    subscriber.changes.clear();
    record
}

fn close(node: &Node, imsi: Imsi, cause: u8, now: u32) -> Mcdr {
    let place = node.find_subscriber(imsi).unwrap();
    let subscriber = node.subscribers[place].as_ref().unwrap();
    Mcdr {
        imsi,
        sgsn: node.profile.sgsn,
        place: subscriber.place,
        changes: subscriber.changes.clone(),
        opened: subscriber.opened,
        offset: node.profile.offset,
        closed: now,
        cause,
        number: number(subscriber, cause),
        node_id: node.profile.node_id.clone(),
    }
}

pub fn is_detach(cause: u8) -> bool {
    matches!(cause, 0 | 4)
}

/// "Number: 1 for the first, absent if release [detach] closes an activation
/// [attachment] with no earlier record."
fn number(subscriber: &Subscriber, cause: u8) -> Option<u64> {
    let sole = is_detach(cause) && subscriber.closed == 0;
    (!sole).then_some(subscriber.closed + 1)
}
