//! "A sound node" of the sets of limits, rule by rule: request W6. Words in
//! quotes are that request's.

use crate::sound::{Found, Range};
use crate::stored::{Limits, Stored};

pub const PARTS: &[&str] = &["volume", "time", "changes"];
pub const SET_PARTS: &[&str] = &["edition", "volume", "time", "changes"];

fn in_range(limits: &Limits, ranges: [Range; 3], found: &mut Found) {
    found.unless("volume", found.in_range(ranges[0], limits.volume));
    found.unless("time", found.in_range(ranges[1], limits.seconds));
    found.unless("changes", found.in_range(ranges[2], limits.changes));
}

fn zero(limits: &Limits, found: &mut Found) {
    found.unless("volume", limits.volume == 0);
    found.unless("time", limits.seconds == 0);
    found.unless("changes", limits.changes == 0);
}

// ---- what the node was given ----

/// "1 to 8 numbered from 1"
pub fn number(node: &Stored, found: &mut Found) {
    found.unless("whole", found.in_range(Range::Sets, node.profile.sets));
}

/// The profile that the node keeps is in range, whatever is in force.
pub fn given(node: &Stored, found: &mut Found) {
    for limits in &node.profile.limits[..node.sets()] {
        in_range(limits, [Range::GivenVolume, Range::GivenTime, Range::GivenChanges], found);
    }
}

/// As of a node ID: "its unused octets zero".
pub fn given_unused(node: &Stored, found: &mut Found) {
    for limits in &node.profile.limits[node.sets()..] {
        zero(limits, found);
    }
}

// ---- what is in force ----

/// "each with an edition from 1", and "none above 65,535"
pub fn editions(node: &Stored, found: &mut Found) {
    let mut used = node.settings[..node.sets()].iter();
    found.unless("whole", used.all(|set| found.in_range(Range::Edition, set.edition)));
}

pub fn sets(node: &Stored, found: &mut Found) {
    for set in &node.settings[..node.sets()] {
        in_range(&set.limits, [Range::SetVolume, Range::SetTime, Range::SetChanges], found);
    }
}

pub fn sets_unused(node: &Stored, found: &mut Found) {
    for set in &node.settings[node.sets()..] {
        found.unless("edition", set.edition == 0);
        zero(&set.limits, found);
    }
}

// ---- contexts ----

/// "each context's set to be one the node has"
pub fn of_context(node: &Stored, found: &mut Found) {
    for context in node.active() {
        found.unless("zero", context.set >= 1);
        found.unless("above", u64::from(context.set) <= node.profile.sets);
    }
}

/// "the open record holds its limits", of whatever edition they are.
pub fn of_record(node: &Stored, found: &mut Found) {
    for context in node.active() {
        let ranges = [Range::RecordVolume, Range::RecordTime, Range::RecordChanges];
        in_range(&context.limits, ranges, found);
    }
}
