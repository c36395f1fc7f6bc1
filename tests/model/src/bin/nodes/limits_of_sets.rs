//! Sound nodes at a limit of the sets (02, W6): the last edition, as many sets
//! as there may be, and records whose own limits are not those in force.

use crate::limits::{any_active, fill_up, say};
use crate::runs;
use crate::sound::record_volume;
use crate::stored::{Context, LimitSet, Limits, Stored};
use charging_model::clock::LAST_SECOND;
use charging_model::event::{octets, Name, Start, What};
use charging_model::limits::{Set, LAST_EDITION, MOST_CHANGES, MOST_TIME, MOST_VOLUME};
use charging_model::random::Random;

/// The set of a context of a sound node.
pub fn set_of<'a>(node: &'a Stored, context: &Context) -> &'a LimitSet {
    &node.settings[usize::from(context.set) - 1]
}

/// How many sets have this edition.
pub fn with_edition(node: &Stored, edition: u16) -> usize {
    node.settings.iter().filter(|set| set.edition == edition).count()
}

// ---- editions and sets ----

/// A set comes to an edition; mostly the next one is asked for.
pub fn edition(node: &mut Stored, random: &mut Random, edition: u16) -> Option<Vec<u8>> {
    let set = runs::set(random, node.sets(), 0);
    node.settings[usize::from(set) - 1].edition = edition;
    let asked = match random.below(6) {
        0 => edition,
        1 => random.pick(&[0, 1, LAST_EDITION]),
        _ => edition.wrapping_add(1),
    };
    let limits = runs::any_limits(random);
    say(node, random, What::Replace(set, Set { edition: asked, limits }))
}

/// The last set of so many, or the one after it, in an activation or in a
/// replacement.
pub fn last_set(node: &mut Stored, random: &mut Random, sets: u64) -> Option<Vec<u8>> {
    if node.profile.sets != sets {
        return None;
    }
    let set = (sets + u64::from(random.percent(70))) as u8;
    let what = match random.percent(50) {
        true => {
            let name = Name { charging_id: random.next() as u32, ggsn: [1, 2, 3, 5] };
            let start = runs::start(random, node.sets());
            What::Activate(name, Box::new(Start { set, ..start }))
        }
        false => {
            let edition = node.view().set(set).map_or(2, |set| set.edition.wrapping_add(1));
            What::Replace(set, Set { edition, limits: runs::any_limits(random) })
        }
    };
    say(node, random, what)
}

// ---- limits of a record beside those in force ----

/// An active context, with its set's limits.
fn beside<'a>(
    node: &'a mut Stored,
    random: &mut Random,
) -> Option<(&'a mut Context, &'a mut Limits)> {
    let slot = any_active(node, random)?;
    let Stored { contexts, settings, .. } = node;
    let context = &mut contexts[slot];
    let set = usize::from(context.set) - 1;
    Some((context, &mut settings[set].limits))
}

/// One octet more closes the record by its own limit; the one in force is
/// higher.
pub fn volume_below(node: &mut Stored, random: &mut Random) -> Option<Vec<u8>> {
    let (context, in_force) = beside(node, random)?;
    if context.limits.volume == MOST_VOLUME {
        return None;
    }
    fill_up(context, random);
    let more = random.sized(MOST_VOLUME - context.limits.volume).max(1);
    in_force.volume = context.limits.volume + more;
    let (up, down) = random.pick(&[(0, 0), (0, 1), (1, 0)]);
    let what = What::Traffic(context.name(), up, down);
    say(node, random, what)
}

/// The limit in force is met, and the record stays open below its own.
pub fn volume_above(node: &mut Stored, random: &mut Random) -> Option<Vec<u8>> {
    let (context, in_force) = beside(node, random)?;
    if record_volume(context) == 0 {
        if context.limits.volume == 1 {
            return None;
        }
        fill_up(context, random);
    }
    let volume = record_volume(context) as u64;
    in_force.volume = volume - random.sized(volume - 1);
    let left = context.limits.volume - volume;
    let up = random.pick(&[0, 0, 1, left - 1]).min(u32::MAX.into()) as u32;
    let what = What::Traffic(context.name(), up, 0);
    say(node, random, what)
}

fn change(context: &Context, random: &mut Random) -> What {
    match random.percent(60) {
        true => What::Qos(context.name(), runs::other_qos(random, context.qos)),
        false => What::Tariff,
    }
}

/// One change more closes the record by its own limit.
pub fn changes_below(node: &mut Stored, random: &mut Random) -> Option<Vec<u8>> {
    let (context, in_force) = beside(node, random)?;
    if context.changes + 1 == MOST_CHANGES {
        return None;
    }
    context.limits.changes = context.changes + 1;
    let from = context.limits.changes + 1;
    in_force.changes = random.between(from.into(), MOST_CHANGES.into()) as u8;
    let what = change(context, random);
    say(node, random, what)
}

/// As many changes as the limit in force, and one more leaves the record open.
pub fn changes_above(node: &mut Stored, random: &mut Random) -> Option<Vec<u8>> {
    let (context, in_force) = beside(node, random)?;
    if !(1..MOST_CHANGES - 1).contains(&context.changes) {
        return None;
    }
    in_force.changes = random.between(1, context.changes.into()) as u8;
    let from = context.changes + 2;
    context.limits.changes = random.between(from.into(), MOST_CHANGES.into()) as u8;
    let what = change(context, random);
    say(node, random, what)
}

/// A tick at the record's own time limit, or just before it; that in force is
/// higher.
pub fn time_below(node: &mut Stored, random: &mut Random) -> Option<Vec<u8>> {
    let clock = node.clock;
    let (context, in_force) = beside(node, random)?;
    let open = clock - context.opening.seconds;
    let own = open.max(1) + random.sized(1000) as u32;
    let tick = context.opening.seconds.checked_add(own)?;
    if own >= MOST_TIME || tick > LAST_SECOND {
        return None;
    }
    context.limits.seconds = own;
    in_force.seconds = random.between(u64::from(own) + 1, MOST_TIME.into()) as u32;
    let early = u32::from(random.percent(20) && tick > clock);
    Some(octets(tick - early, &What::Tick))
}

/// A tick at which the limit in force is met, and the record's own is not.
pub fn time_above(node: &mut Stored, random: &mut Random) -> Option<Vec<u8>> {
    let clock = node.clock;
    let (context, in_force) = beside(node, random)?;
    let open = clock - context.opening.seconds;
    if open == 0 || open >= MOST_TIME {
        return None;
    }
    in_force.seconds = random.between(1, open.into()) as u32;
    context.limits.seconds = random.between(u64::from(open) + 1, MOST_TIME.into()) as u32;
    Some(octets(clock, &What::Tick))
}

/// Limits that differ from those in force.
pub fn differ(node: &Stored, context: &Context) -> bool {
    context.limits != set_of(node, context).limits
}
