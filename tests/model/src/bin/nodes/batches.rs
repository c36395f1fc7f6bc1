//! Batches for nodes: lists of reports, most of them such as a sound node
//! takes.

use crate::limits::{each_limits, no_volumes, LIMITS};
use crate::runs::{self, ROOM};
use crate::stored::Stored;
use charging_model::batch::{batch_of_sound, Batch};
use charging_model::clock::LAST_SECOND;
use charging_model::event::Name;
use charging_model::limits::Limits;
use charging_model::node::{Context, Node, MOST_ACCEPTED};
use charging_model::random::Random;
use charging_model::step::output;

/// A batch for a node: for a context that is active or not, in time or not,
/// with a list that is empty, of odd length, short or, seldom, long.
pub fn batch(random: &mut Random, node: &Node) -> Batch {
    let context = runs::active(random, node).filter(|_| !random.percent(12));
    let name = context.as_ref().map_or_else(|| runs::name(random), |context| context.name);
    let pairs = match random.below(20) {
        0..=2 => 0,
        3..=7 => 1,
        8 => random.between(20, 60),
        _ => random.between(2, 6),
    };
    let mut volumes = reports(random, node, context, pairs);
    if random.percent(15) {
        volumes.push(random.sized(u32::MAX.into()) as u32);
    }
    Batch { time: time(random, node), name, volumes }
}

fn time(random: &mut Random, node: &Node) -> u32 {
    match random.below(20) {
        0 => LAST_SECOND + 1,
        1 => node.clock.saturating_sub(1),
        _ => runs::time(random, node),
    }
}

/// Pairs that meet the volume limit, or just miss it, one after another.
fn reports(random: &mut Random, node: &Node, context: Option<Context>, pairs: u64) -> Vec<u32> {
    let next = context.as_ref().map(|context| node.limits_of(context.start.set));
    let mut context = context;
    let mut volumes = Vec::new();
    for _ in 0..pairs {
        let (up, down) = match &mut context {
            Some(context) => report(random, context, next.unwrap()),
            None => (random.next() as u32, random.next() as u32),
        };
        volumes.extend([up, down]);
    }
    volumes
}

/// A pair, and the context after it: a record that closes is followed by one
/// with these limits.
fn report(random: &mut Random, context: &mut Context, next: Limits) -> (u32, u32) {
    let (up, down) = runs::volumes(random, context);
    context.uplink = context.uplink.saturating_add(up.into());
    context.downlink = context.downlink.saturating_add(down.into());
    if context.record_volume() >= context.limits.volume {
        context.limits = next;
        context.containers.clear();
        (context.uplink, context.downlink) = (0, 0);
    }
    (up, down)
}

/// A node at a limit, with any batch; nothing where it can't be brought there.
pub fn at_limit(node: &mut Stored, random: &mut Random, limit: usize) -> Option<Batch> {
    (LIMITS[limit].reach)(node, random)?;
    Some(batch(random, &node.view()))
}

/// So few events may still be accepted that 7 stops a batch, mostly in the
/// middle.
pub fn events_run_out(node: &mut Stored, random: &mut Random) -> Option<Batch> {
    let left = random.below(4);
    node.accepted = MOST_ACCEPTED - left;
    let view = node.view();
    let context = runs::active(random, &view)?;
    let pairs = left + random.below(4);
    let (time, name) = (time(random, &view), context.name);
    let volumes = reports(random, &view, Some(context), pairs);
    Some(Batch { time, name, volumes })
}

/// Volume limits that single pairs meet, so that a batch closes some records:
/// those of the open records, and of the ones after them.
pub fn closings(node: &mut Stored, random: &mut Random) -> Option<Batch> {
    no_volumes(node);
    let volume = random.pick(&[1, 2, 1000, 70_000, 1 << 32, (1 << 33) - 2]);
    let next = match random.percent(50) {
        true => volume,
        false => random.pick(&[1, 3, 999, 1001, 80_000, (1 << 32) + 1]),
    };
    each_limits(node, |limits| limits.volume = volume);
    let sets = node.sets();
    node.settings[..sets].iter_mut().for_each(|set| set.limits.volume = next);
    let view = node.view();
    let context = runs::active(random, &view)?;
    let pairs = random.between(2, 9);
    let (time, name) = (runs::time(random, &view), context.name);
    let volumes = reports(random, &view, Some(context), pairs);
    Some(Batch { time, name, volumes })
}

/// A room: all there may be, just enough, or such that it ends at a record.
pub fn room(random: &mut Random, node: &Node, batch: &Batch) -> usize {
    let done = batch_of_sound(node, batch, ROOM);
    let needed = done.output.len();
    if done.records.is_empty() {
        return random.pick(&[0, 0, 1, 113, 1024]);
    }
    // so many records fit, and the next does not
    let fit = random.below(done.records.len() as u64) as usize;
    let before = output(&done.records[..fit]).len();
    let next = output(&done.records[fit..fit + 1]).len();
    match random.below(10) {
        0 => ROOM,
        1 => before,
        2 | 3 => before + next - 1,
        4 => needed - 1,
        5 => before + random.below(next as u64) as usize,
        6 => (needed + random.below(40) as usize).min(ROOM),
        _ => needed,
    }
}

/// Whether a pair of this name at this time would be refused.
pub fn pair_refused(node: &Node, time: u32, name: Name) -> bool {
    time > LAST_SECOND || time < node.clock || node.find(name).is_none()
}
