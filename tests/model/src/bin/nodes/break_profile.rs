//! Ways to break each rule of the profile and of the sets of limits.

use crate::breaks::{above, done, edge, some, some16, some32, some64, used};
use crate::limits::set_zone;
use crate::runs::{any_limits, node_id_character};
use crate::sound::{record_volume, Range};
use crate::stored::{within, LimitSet, Limits, Stored, FREE, NODE_ID, PLACES, SETS, SLOTS};
use charging_model::random::Random;

// ---- offset and node ID ----

pub fn offset(node: &mut Stored, random: &mut Random) -> Option<()> {
    let zone = above(random, Range::Zone, u16::MAX.into()) as u16;
    if random.percent(80) {
        set_zone(node, zone);
    }
    done(node.profile.zone = zone)
}

pub fn node_id_length(node: &mut Stored, random: &mut Random) -> Option<()> {
    node.profile.nodeid = [0; NODE_ID].map(|_| node_id_character(random));
    done(node.profile.nodelen = above(random, Range::NodeIdLength, u64::MAX))
}

pub fn node_id_character_wrong(node: &mut Stored, random: &mut Random) -> Option<()> {
    let length = within(node.profile.nodelen, NODE_ID);
    if length == 0 {
        return None;
    }
    let at = edge(random, 0, length);
    let any = 0x7F + random.below(0x81) as u8;
    done(node.profile.nodeid[at] = random.pick(&[0x1F, 0x7F, 0, 0x80, 0xFF, any]))
}

pub fn node_id_unused(node: &mut Stored, random: &mut Random) -> Option<()> {
    let length = within(node.profile.nodelen, NODE_ID);
    if length == NODE_ID {
        return None;
    }
    let at = edge(random, length, NODE_ID);
    done(node.profile.nodeid[at] = some(random) as u8)
}

/// Of an empty node ID, so that every octet is met.
pub fn node_id_unused_far(node: &mut Stored, random: &mut Random) -> Option<()> {
    (node.profile.nodeid, node.profile.nodelen) = ([0; NODE_ID], 0);
    done(node.profile.nodeid[random.below(NODE_ID as u64) as usize] = some(random) as u8)
}

// ---- the number of sets ----

/// No set: with no context and nothing else of a set, nothing else breaks.
pub fn no_set(node: &mut Stored, random: &mut Random) -> Option<()> {
    node.profile.sets = 0;
    if random.percent(90) {
        node.profile.limits = [Limits::default(); SETS];
        node.settings = [LimitSet::default(); SETS];
        node.contexts = [FREE; SLOTS];
    }
    Some(())
}

/// More sets than there are places; all of these are used.
pub fn too_many_sets(node: &mut Stored, random: &mut Random) -> Option<()> {
    for at in node.sets()..SETS {
        node.profile.limits[at] = Limits::store(any_limits(random));
        node.settings[at] = LimitSet { edition: 1, limits: node.profile.limits[at] };
    }
    done(node.profile.sets = above(random, Range::Sets, u64::MAX))
}

// ---- limits out of range ----

/// One of three limits: zero or above the highest.
fn wrong(random: &mut Random, limits: &mut Limits, range: Range) {
    let zero = random.percent(40);
    let mut value = |most: u64| if zero { 0 } else { above(random, range, most) };
    match range {
        Range::GivenVolume | Range::SetVolume | Range::RecordVolume => {
            limits.volume = value(u64::MAX)
        }
        Range::GivenTime | Range::SetTime | Range::RecordTime => {
            limits.seconds = value(u32::MAX.into()) as u32
        }
        _ => limits.changes = value(255) as u8,
    }
}

pub fn given(node: &mut Stored, random: &mut Random, range: Range) -> Option<()> {
    let at = edge(random, 0, node.sets().max(1));
    done(wrong(random, &mut node.profile.limits[at], range))
}

pub fn set(node: &mut Stored, random: &mut Random, range: Range) -> Option<()> {
    let at = edge(random, 0, node.sets().max(1));
    done(wrong(random, &mut node.settings[at].limits, range))
}

pub fn edition(node: &mut Stored, random: &mut Random) -> Option<()> {
    let at = edge(random, 0, node.sets().max(1));
    done(node.settings[at].edition = 0)
}

/// Of an open record; a limit of zero breaks the rule of what it limits too.
pub fn record(node: &mut Stored, random: &mut Random, range: Range) -> Option<()> {
    let context = used(node, random)?;
    done(wrong(random, &mut context.limits, range))
}

/// A record's own change limit is met, and that of its set is not.
pub fn count_at_own(node: &mut Stored, random: &mut Random) -> Option<()> {
    let context = used(node, random)?;
    let (set, count) = (usize::from(context.set).checked_sub(1)?, context.used().len());
    if count == 0 || count == PLACES {
        return None;
    }
    context.limits.changes = count as u8;
    done(node.settings.get_mut(set)?.limits.changes = count as u8 + 1)
}

/// The same of its volume limit.
pub fn volumes_at_own(node: &mut Stored, random: &mut Random) -> Option<()> {
    let context = used(node, random)?;
    let set = usize::from(context.set).checked_sub(1)?;
    let volume = u64::try_from(record_volume(context)).ok().filter(|volume| *volume > 0)?;
    context.limits.volume = volume;
    done(node.settings.get_mut(set)?.limits.volume = volume.checked_add(1)?)
}

// ---- sets that are not used ----

fn unused(node: &Stored, random: &mut Random) -> Option<usize> {
    (node.sets() < SETS).then(|| edge(random, node.sets(), SETS))
}

fn not_zero(random: &mut Random, limits: &mut Limits, part: &str) {
    match part {
        "volume" => limits.volume = some64(random),
        "time" => limits.seconds = some32(random),
        _ => limits.changes = some(random) as u8,
    }
}

pub fn given_unused(node: &mut Stored, random: &mut Random, part: &str) -> Option<()> {
    let at = unused(node, random)?;
    done(not_zero(random, &mut node.profile.limits[at], part))
}

pub fn set_unused(node: &mut Stored, random: &mut Random, part: &str) -> Option<()> {
    let at = unused(node, random)?;
    done(not_zero(random, &mut node.settings[at].limits, part))
}

pub fn edition_unused(node: &mut Stored, random: &mut Random) -> Option<()> {
    let at = unused(node, random)?;
    done(node.settings[at].edition = some16(random))
}

// ---- the set of a context ----

pub fn set_zero(node: &mut Stored, random: &mut Random) -> Option<()> {
    done(used(node, random)?.set = 0)
}

/// One above the last, or above the eighth, or any.
pub fn set_above(node: &mut Stored, random: &mut Random) -> Option<()> {
    let after = node.sets() as u64 + 1;
    let set = match random.below(5) {
        0 | 1 => after,
        2 => after.max(9),
        3 => 255,
        _ => random.between(after, 255),
    };
    done(used(node, random)?.set = set as u8)
}
