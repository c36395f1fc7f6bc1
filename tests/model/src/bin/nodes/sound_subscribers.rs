//! "A sound node" of subscribers, rule by rule: request W4, which takes the
//! rules of contexts over, with location changes in place of containers.

use crate::sound::{imsi_of, Found, Range};
use crate::stored::{Change, Stored};

// ---- free places, unused changes ----

/// As for contexts: `active` is 1 or 0.
pub fn attached(node: &Stored, found: &mut Found) {
    found.unless("whole", node.subscribers.iter().all(|s| s.active <= 1));
}

pub const CHANGE_PARTS: &[&str] = &["lac", "rac", "seconds", "zone"];

/// The fields of a location change, each with whether it is zero.
fn change_zero(change: &Change, found: &mut Found) {
    found.unless("lac", change.place.lac == 0);
    found.unless("rac", change.place.rac == 0);
    found.unless("seconds", change.time.seconds == 0);
    found.unless("zone", change.time.zone == 0);
}

pub const FREE_PARTS: &[&str] = &[
    "imsi",
    "opening's lac",
    "opening's rac",
    "opening's seconds",
    "opening's zone",
    "lac",
    "rac",
    "seconds",
    "zone",
    "count",
    "closed",
];

/// "free slots .. all zero"
pub fn free_place(node: &Stored, found: &mut Found) {
    for subscriber in node.subscribers.iter().filter(|s| s.active == 0) {
        found.unless("imsi", subscriber.imsi == [0; 8]);
        found.unless("opening's lac", subscriber.place.lac == 0);
        found.unless("opening's rac", subscriber.place.rac == 0);
        found.unless("opening's seconds", subscriber.opening.seconds == 0);
        found.unless("opening's zone", subscriber.opening.zone == 0);
        for change in &subscriber.changes {
            change_zero(change, found);
        }
        found.unless("count", subscriber.count == 0);
        found.unless("closed", subscriber.closed == 0);
    }
}

/// "unused container places all zero"
pub fn unused_change(node: &Stored, found: &mut Found) {
    for subscriber in node.attached() {
        for change in subscriber.unused() {
            change_zero(change, found);
        }
    }
}

// ---- names ----

/// "active names distinct": IMSIs
pub fn imsis(node: &Stored, found: &mut Found) {
    let imsis: Vec<[u8; 8]> = node.attached().map(|s| s.imsi).collect();
    let distinct = imsis.iter().enumerate().all(|(at, imsi)| !imsis[..at].contains(imsi));
    found.unless("whole", distinct);
}

/// "IMSI 6..15 digits, low half first, all later halves F"
pub fn imsi(node: &Stored, found: &mut Found) {
    for subscriber in node.attached() {
        imsi_of(&subscriber.imsi, Range::SubscriberDigits, found);
    }
}

// ---- each subscriber ----

/// A stored time keeps the profile's offset beside it.
pub fn stored_offset(node: &Stored, found: &mut Found) {
    for subscriber in node.attached() {
        found.unless("opening", subscriber.opening.zone == node.profile.zone);
        for change in subscriber.used() {
            found.unless("change", change.time.zone == node.profile.zone);
        }
    }
}

/// "closed records below the accepted count"
pub fn closed(node: &Stored, found: &mut Found) {
    found.unless("whole", node.attached().all(|s| s.closed < node.accepted));
}

/// The fifteenth change closes the record, so that an open one has 14 at most.
pub fn change_count(node: &Stored, found: &mut Found) {
    let kept = node.attached().all(|s| found.in_range(Range::LocationChanges, s.count));
    found.unless("whole", kept);
}

/// "A change to the same place is none, in records and sound nodes too"
pub fn places(node: &Stored, found: &mut Found) {
    for subscriber in node.attached() {
        if let Some(first) = subscriber.used().first() {
            found.unless("opening, change", subscriber.place != first.place);
        }
        for pair in subscriber.used().windows(2) {
            found.unless("change, change", pair[0].place != pair[1].place);
        }
    }
}

/// Opening, changes and clock in order
pub fn times(node: &Stored, found: &mut Found) {
    for subscriber in node.attached() {
        let opening = subscriber.opening.seconds;
        let times: Vec<u32> = subscriber.used().iter().map(|c| c.time.seconds).collect();
        for pair in times.windows(2) {
            found.unless("change, change", pair[0] <= pair[1]);
        }
        match times[..] {
            [] => found.unless("opening, clock", opening <= node.clock),
            [first, ..] => {
                let last = times[times.len() - 1];
                found.unless("opening, change", opening <= first);
                found.unless("change, clock", last <= node.clock);
            }
        }
    }
}
