//! Ways to break each rule of "A sound node" of subscribers.

use crate::breaks::{
    above_of, done, edge, imsi_of_wrong_length, imsi_with_later_half, later, some, some64,
};
use crate::runs::another_place;
use crate::stored::{Change, Stored, Subscriber, CHANGES, SUBSCRIBERS};
use charging_model::random::Random;

// ---- places ----

pub fn taken<'a>(node: &'a mut Stored, random: &mut Random) -> Option<&'a mut Subscriber> {
    one_of(node, random, 1)
}

pub fn free<'a>(node: &'a mut Stored, random: &mut Random) -> Option<&'a mut Subscriber> {
    one_of(node, random, 0)
}

fn one_of<'a>(node: &'a mut Stored, random: &mut Random, active: u8) -> Option<&'a mut Subscriber> {
    let places = node.places(active);
    if places.is_empty() {
        return None;
    }
    Some(&mut node.subscribers[places[edge(random, 0, places.len())]])
}

pub fn free_change<'a>(node: &'a mut Stored, random: &mut Random) -> Option<&'a mut Change> {
    let at = edge(random, 0, CHANGES);
    free(node, random).map(|subscriber| &mut subscriber.changes[at])
}

/// A subscriber with so many changes, and their count.
fn with<'a>(
    node: &'a mut Stored,
    random: &mut Random,
    fewest: usize,
) -> Option<(&'a mut Subscriber, usize)> {
    let subscriber = taken(node, random)?;
    let count = subscriber.used().len();
    (count >= fewest).then_some((subscriber, count))
}

pub fn change<'a>(node: &'a mut Stored, random: &mut Random) -> Option<&'a mut Change> {
    let (subscriber, count) = with(node, random, 1)?;
    Some(&mut subscriber.changes[edge(random, 0, count)])
}

/// An unused change of a subscriber.
pub fn unused<'a>(node: &'a mut Stored, random: &mut Random) -> Option<&'a mut Change> {
    let (subscriber, count) = with(node, random, 0)?;
    (count < CHANGES).then(|| &mut subscriber.changes[edge(random, count, CHANGES)])
}

// ---- fields ----

pub fn attached(node: &mut Stored, random: &mut Random) -> Option<()> {
    let at = edge(random, 0, SUBSCRIBERS);
    done(node.subscribers[at].active = above_of(random, 1, 255) as u8)
}

pub fn free_imsi(node: &mut Stored, random: &mut Random) -> Option<()> {
    done(free(node, random)?.imsi[random.below(8) as usize] = some(random) as u8)
}

pub fn imsi_digits(node: &mut Stored, random: &mut Random) -> Option<()> {
    done(taken(node, random)?.imsi = imsi_of_wrong_length(random))
}

pub fn imsi_later(node: &mut Stored, random: &mut Random) -> Option<()> {
    done(taken(node, random)?.imsi = imsi_with_later_half(random))
}

/// The IMSI of one subscriber in another, or a subscriber twice.
pub fn imsis(node: &mut Stored, random: &mut Random) -> Option<()> {
    let places = node.places(1);
    let one = *taken(node, random)?;
    if places.len() < 2 || random.percent(20) {
        return done(*free(node, random)? = one);
    }
    let other = taken(node, random)?;
    let differs = other.imsi != one.imsi;
    other.imsi = one.imsi;
    differs.then_some(())
}

// ---- counts ----

pub fn closed(node: &mut Stored, random: &mut Random) -> Option<()> {
    let accepted = node.accepted;
    let more = if random.percent(50) { accepted } else { above_of(random, accepted, u64::MAX) };
    done(taken(node, random)?.closed = more)
}

/// A fifteenth change is stored, and the record is open all the same.
pub fn fifteenth(node: &mut Stored, random: &mut Random) -> Option<()> {
    let (subscriber, mut count) = with(node, random, 1)?;
    while count < CHANGES {
        let mut change = subscriber.changes[count - 1];
        change.place = another_place(random, change.place);
        subscriber.changes[count] = change;
        count += 1;
    }
    done(subscriber.count = count as u64)
}

/// A count that is far too high, also in its higher octets alone.
pub fn count_high(node: &mut Stored, random: &mut Random) -> Option<()> {
    let subscriber = taken(node, random)?;
    let more = match random.below(3) {
        0 => 16,
        1 => 1 << random.between(8, 63),
        _ => some64(random),
    };
    subscriber.count = subscriber.count.checked_add(more)?;
    (subscriber.count > 14).then_some(())
}

// ---- places and times ----

pub fn same_as_opening(node: &mut Stored, random: &mut Random) -> Option<()> {
    let (subscriber, count) = with(node, random, 1)?;
    let first = subscriber.changes[0].place;
    if count > 1 && random.percent(50) && subscriber.changes[1].place != subscriber.place {
        return done(subscriber.changes[0].place = subscriber.place);
    }
    done(subscriber.place = first)
}

pub fn same_as_before(node: &mut Stored, random: &mut Random) -> Option<()> {
    let (subscriber, count) = with(node, random, 2)?;
    let at = edge(random, 1, count);
    done(subscriber.changes[at].place = subscriber.changes[at - 1].place)
}

pub fn opening_late(node: &mut Stored, random: &mut Random) -> Option<()> {
    let (subscriber, _) = with(node, random, 1)?;
    done(subscriber.opening.seconds = later(random, subscriber.changes[0].time.seconds))
}

pub fn change_late(node: &mut Stored, random: &mut Random) -> Option<()> {
    let (subscriber, count) = with(node, random, 2)?;
    let at = edge(random, 0, count - 1);
    let next = subscriber.changes[at + 1].time.seconds;
    if random.percent(50) {
        return done(subscriber.changes[at].time.seconds = later(random, next));
    }
    let before = subscriber.changes[at].time.seconds;
    done(subscriber.changes[at + 1].time.seconds = before.checked_sub(1)?)
}

pub fn clock_early(node: &mut Stored, random: &mut Random) -> Option<()> {
    let clock = node.clock;
    let (subscriber, count) = with(node, random, 1)?;
    let last = &mut subscriber.changes[count - 1].time.seconds;
    if random.percent(70) {
        return done(*last = later(random, clock));
    }
    let last = *last;
    done(node.clock = last.checked_sub(1)?)
}

pub fn opening_beyond(node: &mut Stored, random: &mut Random) -> Option<()> {
    let clock = node.clock;
    let (subscriber, count) = with(node, random, 0)?;
    (count == 0).then(|| subscriber.opening.seconds = later(random, clock))
}
