//! Sound nodes at each limit, with events that go up to it and over it.

use crate::limits_of_sets as sets;
use crate::runs;
use crate::sound::record_volume;
use crate::stored::{Change, Context, Limits, Stamp, Stored, Subscriber, FREE, SLOTS, SUBSCRIBERS};
use charging_model::batch::Batched;
use charging_model::cdr::Cdr;
use charging_model::clock::LAST_SECOND;
use charging_model::event::{octets, Name, What};
use charging_model::node::MOST_ACCEPTED;
use charging_model::random::Random;
use charging_model::step::{step, CHANGES, TIME, VOLUME};
use charging_model::subscriber::Place;

/// A limit: its name; brings a node to it and says an event, or nothing where
/// the node can't be brought there; whether a node is at it; and whether a call
/// on such a node goes to the limit or over it.
pub struct Limit {
    pub name: &'static str,
    pub reach: fn(&mut Stored, &mut Random) -> Option<Vec<u8>>,
    pub at: fn(&Stored) -> bool,
    pub over: fn(&Stored, &Batched) -> bool,
}

macro_rules! limits {
    ($($name:literal $reach:expr, $at:expr, $over:expr;)*) => {
        pub const LIMITS: &[Limit] =
            &[$(Limit { name: $name, reach: $reach, at: $at, over: $over }),*];
    };
}

limits! {
    "closed = accepted - 1" closed, |n| some(n, |c| closed_at(n, c)),
        |n, s| s.records.iter().filter_map(Cdr::s).any(|r| r.number == Some(n.accepted));
    "changes = limit - 1" changes, |n| some(n, changes_at), |_, s| cause(s, CHANGES);
    "volume = limit - 1" volume, |n| some(n, volume_at), |_, s| cause(s, VOLUME);
    "accepted = 10^15" |n, r| accepted(n, r, MOST_ACCEPTED),
        |n| n.accepted == MOST_ACCEPTED, |_, s| s.answer == 7;
    "accepted = 10^15 - 1" |n, r| accepted(n, r, MOST_ACCEPTED - 1),
        |n| n.accepted == MOST_ACCEPTED - 1, |_, s| s.answer == 0;
    "clock = 3,155,759,999" clock, |n| n.clock == LAST_SECOND, |_, s| s.answer == 6;
    "change limit 1" |n, r| change_limit(n, r, 1),
        |n| some(n, |c| c.limits.changes == 1), |_, s| cause(s, CHANGES);
    "change limit 15" fifteen, |n| some(n, |c| c.limits.changes == 15),
        |_, s| s.records.iter().filter_map(Cdr::s).any(|r| r.containers.len() == 15);
    "volume limit 1" volume_limit,
        |n| some(n, |c| c.limits.volume == 1), |_, s| cause(s, VOLUME);
    "offset -720" |n, r| zone(n, r, 0), |n| n.profile.zone == 0, |_, s| !s.records.is_empty();
    "offset 840" |n, r| zone(n, r, 1560),
        |n| n.profile.zone == 1560, |_, s| !s.records.is_empty();
    "all slots taken" full, |n| n.slots(0).is_empty(), |_, s| s.answer == 10;
    "one slot free" one_slot,
        |n| n.slots(0).len() == 1, |_, s| s.node.slots.iter().all(Option::is_some);
    "14 location changes" |n, r| one_more_change(n, r, 14),
        |n| n.attached().any(|s| s.count == 14), |_, s| s.records.iter().any(by_changes);
    "14 location changes, closed before the next" closed_before,
        |n| n.attached().any(|s| s.count == 14), |_, s| s.records.iter().any(of_fourteen);
    "13 location changes" |n, r| one_more_change(n, r, 13),
        |n| n.attached().any(|s| s.count == 13), |_, s| s.answer == 0 && has_fourteen(s);
    "a subscriber's closed = accepted - 1" closed_of_subscriber,
        |n| n.attached().any(|s| s.closed + 1 == n.accepted),
        |n, s| s.records.iter().filter_map(Cdr::m).any(|r| r.number == Some(n.accepted));
    "all places taken" full_of_subscribers,
        |n| n.places(0).is_empty(), |_, s| s.answer == 17;
    "one place free" one_place,
        |n| n.places(0).len() == 1, |_, s| s.node.subscribers.iter().all(Option::is_some);
    "edition 65,535" |n, r| sets::edition(n, r, 65_535),
        |n| sets::with_edition(n, 65_535) > 0, |_, s| s.answer == 19;
    "edition 65,534" |n, r| sets::edition(n, r, 65_534),
        |n| sets::with_edition(n, 65_534) > 0, reaches_last_edition;
    "one set" |n, r| sets::last_set(n, r, 1), |n| n.profile.sets == 1, |_, s| s.answer == 18;
    "eight sets" |n, r| sets::last_set(n, r, 8), |n| n.profile.sets == 8, |_, s| s.answer == 18;
    "own volume = limit - 1, below the set's limit" sets::volume_below,
        |n| some(n, |c| volume_at(c) && c.limits.volume < sets::set_of(n, c).limits.volume),
        |_, s| cause(s, VOLUME);
    "volume at the set's limit, below its own" sets::volume_above,
        |n| some(n, |c| record_volume(c) >= sets::set_of(n, c).limits.volume.into()), stays_open;
    "own changes = limit - 1, below the set's limit" sets::changes_below,
        |n| some(n, |c| changes_at(c) && c.limits.changes < sets::set_of(n, c).limits.changes),
        |_, s| cause(s, CHANGES);
    "changes at the set's limit, below their own" sets::changes_above,
        |n| some(n, |c| c.changes >= sets::set_of(n, c).limits.changes), stays_open;
    "own time limit below the set's" sets::time_below,
        |n| some(n, |c| c.limits.seconds < sets::set_of(n, c).limits.seconds),
        |_, s| cause(s, TIME);
    "open for the set's time limit, not for its own" sets::time_above,
        |n| some(n, |c| between_time_limits(n, c)), stays_open;
}

/// Open as long as the set's limit asks for, but not as its own does.
fn between_time_limits(node: &Stored, context: &Context) -> bool {
    let open = node.clock - context.opening.seconds;
    (sets::set_of(node, context).limits.seconds..context.limits.seconds).contains(&open)
}

fn stays_open(_: &Stored, done: &Batched) -> bool {
    done.answer == 0 && done.records.is_empty()
}

fn reaches_last_edition(node: &Stored, done: &Batched) -> bool {
    let last = done.node.sets.iter().filter(|set| set.edition == 65_535).count();
    last > sets::with_edition(node, 65_535)
}

fn by_changes(record: &Cdr) -> bool {
    record.m().is_some_and(|record| record.cause == CHANGES)
}

fn of_fourteen(record: &Cdr) -> bool {
    record.m().is_some_and(|record| record.changes.len() == 14)
}

fn has_fourteen(done: &Batched) -> bool {
    done.node.subscribers.iter().flatten().any(|s| s.changes.len() == 14)
}

pub fn cause(done: &Batched, cause: u8) -> bool {
    done.records.iter().filter_map(Cdr::s).any(|record| record.cause == cause)
}

pub fn some(node: &Stored, at: impl Fn(&Context) -> bool) -> bool {
    node.active().any(at)
}

fn closed_at(node: &Stored, context: &Context) -> bool {
    context.closed + 1 == node.accepted
}

fn changes_at(context: &Context) -> bool {
    context.count + 1 == u64::from(context.limits.changes)
}

fn volume_at(context: &Context) -> bool {
    record_volume(context) + 1 == u128::from(context.limits.volume)
}

/// An active context, if there is one.
pub fn any_active(node: &Stored, random: &mut Random) -> Option<usize> {
    let active = node.slots(1);
    (!active.is_empty()).then(|| random.pick(&active))
}

pub fn say(node: &Stored, random: &mut Random, what: What) -> Option<Vec<u8>> {
    Some(octets(runs::time(random, &node.view()), &what))
}

/// Many events were accepted, and no context or subscriber closed too much.
fn many_accepted(node: &mut Stored, random: &mut Random) {
    let closed = node.active().map(|c| c.closed).chain(node.attached().map(|s| s.closed));
    let least = closed.max().unwrap_or_default() + 1;
    let many = match random.percent(50) {
        true => random.pick(&[128, 32_767, 32_768, 40_000, 65_535, 65_536, 1 << 31, 1 << 47]),
        false => MOST_ACCEPTED - random.below(3),
    };
    node.accepted = many.max(least);
}

/// The next record has the number that was the accepted count.
fn closed(node: &mut Stored, random: &mut Random) -> Option<Vec<u8>> {
    let slot = any_active(node, random)?;
    if random.percent(60) {
        many_accepted(node, random);
    }
    let context = &mut node.contexts[slot];
    context.closed = node.accepted - 1;
    let name = context.name();
    let what = match random.below(5) {
        0 => What::Release(name, random.pick(&[0, 4, 18])),
        1 => What::Tick,
        2 => What::Traffic(name, u32::MAX, u32::MAX),
        3 => What::Tariff,
        _ => What::Management(name),
    };
    say(node, random, what)
}

/// The next change closes the record, cause 19.
fn changes(node: &mut Stored, random: &mut Random) -> Option<Vec<u8>> {
    let slot = any_active(node, random)?;
    let context = &mut node.contexts[slot];
    context.limits.changes = context.changes + 1;
    let context = *context;
    let mut qos = context.qos;
    if random.percent(80) {
        qos = runs::other_qos(random, qos);
    }
    let what = match random.below(5) {
        0 => What::Management(context.name()),
        1 | 2 => What::Tariff,
        _ => What::Qos(context.name(), qos),
    };
    say(node, random, what)
}

/// One octet more closes the record, cause 16.
fn volume(node: &mut Stored, random: &mut Random) -> Option<Vec<u8>> {
    let slot = any_active(node, random)?;
    let context = &mut node.contexts[slot];
    fill_up(context, random);
    let name = context.name();
    let what = match random.below(6) {
        0 => What::Traffic(name, 0, 0),
        1 => What::Traffic(name, 0, 1),
        2 => What::Traffic(name, 1, 0),
        3 => What::Traffic(name, u32::MAX, u32::MAX),
        4 => What::Tariff,
        _ => What::Release(name, 0),
    };
    say(node, random, what)
}

/// The volumes of an open record sum to one less than its limit.
pub fn fill_up(context: &mut Context, random: &mut Random) {
    let mut left = context.limits.volume - 1 - record_volume(context) as u64;
    while left > 0 {
        let part = if random.percent(50) { left } else { random.sized(left) };
        left -= part;
        let used = context.count;
        let (up, down) = match random.below(used + 1) as usize {
            at if at as u64 == used => (&mut context.uplink, &mut context.downlink),
            at => {
                let container = &mut context.containers[at];
                (&mut container.uplink, &mut container.downlink)
            }
        };
        *(if random.percent(50) { up } else { down }) += part;
    }
}

/// At 10^15 every event that passes 1 to 6 is refused with 7.
fn accepted(node: &mut Stored, random: &mut Random, count: u64) -> Option<Vec<u8>> {
    node.accepted = count;
    Some(runs::event(random, &node.view()))
}

/// Equal times are fine, later ones are 6.
fn clock(node: &mut Stored, random: &mut Random) -> Option<Vec<u8>> {
    node.clock = LAST_SECOND;
    if random.percent(30) {
        return Some(octets(LAST_SECOND + random.below(2) as u32, &What::Tick));
    }
    Some(runs::event(random, &node.view()))
}

/// With 1 every change closes a record of one container.
fn change_limit(node: &mut Stored, random: &mut Random, limit: u8) -> Option<Vec<u8>> {
    let slot = any_active(node, random)?;
    let fits = node.active().all(|c| c.changes < limit);
    if !fits {
        return None;
    }
    each_limits(node, |limits| limits.changes = limit);
    let what = match random.percent(50) {
        true => What::Qos(node.contexts[slot].name(), runs::qos(random)),
        false => What::Tariff,
    };
    say(node, random, what)
}

/// Other limits for all open records.
pub fn each_limits(node: &mut Stored, change: impl Fn(&mut Limits)) {
    node.contexts.iter_mut().filter(|c| c.active == 1).for_each(|c| change(&mut c.limits));
}

/// Fifteen containers are the most, and the last change closes them.
fn fifteen(node: &mut Stored, random: &mut Random) -> Option<Vec<u8>> {
    any_active(node, random)?;
    each_limits(node, |limits| limits.changes = 15);
    let least = random.pick(&[0, 13, 14, 14, 14]);
    while node.active().all(|c| c.changes < least) {
        let tariff = octets(node.clock, &What::Tariff);
        *node = Stored::store(&step(&node.view(), &tariff, runs::ROOM).node);
    }
    let context = node.active().max_by_key(|c| c.changes)?;
    let what = match random.percent(50) {
        true => What::Qos(context.name(), runs::other_qos(random, context.qos)),
        false => What::Tariff,
    };
    say(node, random, what)
}

/// A context that no node has yet, or any event.
fn newcomer(node: &Stored, random: &mut Random) -> Vec<u8> {
    match random.percent(50) {
        true => {
            let name = Name { charging_id: random.next() as u32, ggsn: [1, 2, 3, 4] };
            let start = runs::start(random, node.sets());
            octets(node.clock, &What::Activate(name, Box::new(start)))
        }
        false => runs::event(random, &node.view()),
    }
}

/// No more can be activated.
fn full(node: &mut Stored, random: &mut Random) -> Option<Vec<u8>> {
    node.slots(0).is_empty().then(|| newcomer(node, random))
}

/// One more can be activated, in any slot.
fn one_slot(node: &mut Stored, random: &mut Random) -> Option<Vec<u8>> {
    if node.slots(0).is_empty() {
        node.contexts[random.below(SLOTS as u64) as usize] = FREE;
    }
    (node.slots(0).len() == 1).then(|| newcomer(node, random))
}

/// Nothing was reported since the records opened, so any volume limit will do.
pub fn no_volumes(node: &mut Stored) {
    for context in node.contexts.iter_mut() {
        (context.uplink, context.downlink) = (0, 0);
        for container in context.containers.iter_mut() {
            (container.uplink, container.downlink) = (0, 0);
        }
    }
}

/// Every octet closes a record.
fn volume_limit(node: &mut Stored, random: &mut Random) -> Option<Vec<u8>> {
    let slot = any_active(node, random)?;
    no_volumes(node);
    node.contexts[slot].limits.volume = 1;
    let (up, down) = random.pick(&[(0, 0), (0, 1), (1, 0), (u32::MAX, 0)]);
    say(node, random, What::Traffic(node.contexts[slot].name(), up, down))
}

// ---- subscribers ----

/// A subscriber, if there is one.
fn any_attached(node: &Stored, random: &mut Random) -> Option<usize> {
    let taken = node.places(1);
    (!taken.is_empty()).then(|| random.pick(&taken))
}

/// Changes are stored up to so many; the subscriber that has them.
fn store_changes(node: &mut Stored, random: &mut Random, count: u64) -> Option<Subscriber> {
    let at = any_attached(node, random)?;
    let now = Stamp { seconds: node.clock, zone: node.profile.zone };
    let subscriber = &mut node.subscribers[at];
    if subscriber.count > count {
        return None;
    }
    while subscriber.count < count {
        let place = runs::another_place(random, subscriber.place_in_force());
        subscriber.changes[subscriber.count as usize] = Change { place, time: now };
        subscriber.count += 1;
    }
    Some(*subscriber)
}

/// One change more, seldom to the same place: the fifteenth closes the record,
/// cause 19, and the fourteenth does not.
fn one_more_change(node: &mut Stored, random: &mut Random, count: u64) -> Option<Vec<u8>> {
    let subscriber = store_changes(node, random, count)?;
    let mut place = subscriber.place_in_force();
    if random.percent(95) {
        place = runs::another_place(random, place);
    }
    let place = Place { lac: place.lac, rac: place.rac };
    say(node, random, What::Location(subscriber.imsi, place))
}

/// Management or a detach with fourteen changes.
fn closed_before(node: &mut Stored, random: &mut Random) -> Option<Vec<u8>> {
    let imsi = store_changes(node, random, 14)?.imsi;
    let what = match random.percent(50) {
        true => What::SubscriberManagement(imsi),
        false => What::Detach(imsi, random.pick(&[0, 4])),
    };
    say(node, random, what)
}

/// The next M-CDR has the number that was the accepted count.
fn closed_of_subscriber(node: &mut Stored, random: &mut Random) -> Option<Vec<u8>> {
    let at = any_attached(node, random)?;
    if random.percent(60) {
        many_accepted(node, random);
    }
    let subscriber = &mut node.subscribers[at];
    subscriber.closed = node.accepted - 1;
    let imsi = subscriber.imsi;
    let what = match random.below(4) {
        0 => What::Tick,
        1 => What::Detach(imsi, random.pick(&[0, 4])),
        _ => What::SubscriberManagement(imsi),
    };
    say(node, random, what)
}

/// No more can be attached: neither another subscriber, nor one that is
/// attached.
fn full_of_subscribers(node: &mut Stored, random: &mut Random) -> Option<Vec<u8>> {
    if !node.places(0).is_empty() {
        return None;
    }
    let imsi = match any_attached(node, random) {
        Some(at) if random.percent(20) => node.subscribers[at].imsi,
        _ => runs::subscriber_name(random),
    };
    let what = match random.below(6) {
        0 => What::Detach(imsi, 0),
        _ => What::Attach(imsi, runs::place(random)),
    };
    say(node, random, what)
}

/// One more can be attached, in any place.
fn one_place(node: &mut Stored, random: &mut Random) -> Option<Vec<u8>> {
    if node.places(0).is_empty() {
        node.subscribers[random.below(SUBSCRIBERS as u64) as usize] = Subscriber::default();
    }
    if node.places(0).len() != 1 {
        return None;
    }
    let what = What::Attach(runs::subscriber_name(random), runs::place(random));
    say(node, random, what)
}

/// Every stored time has the profile's offset.
pub fn set_zone(node: &mut Stored, zone: u16) {
    node.profile.zone = zone;
    for context in node.contexts.iter_mut().filter(|c| c.active == 1) {
        context.opening.zone = zone;
        let used = context.used().len();
        for container in &mut context.containers[..used] {
            container.time.zone = zone;
        }
    }
    for subscriber in node.subscribers.iter_mut().filter(|s| s.active == 1) {
        subscriber.opening.zone = zone;
        let used = subscriber.used().len();
        for change in &mut subscriber.changes[..used] {
            change.time.zone = zone;
        }
    }
}

fn zone(node: &mut Stored, random: &mut Random, zone: u16) -> Option<Vec<u8>> {
    let slot = any_active(node, random)?;
    set_zone(node, zone);
    let name = node.contexts[slot].name();
    let what = if random.percent(50) { What::Management(name) } else { What::Release(name, 4) };
    say(node, random, what)
}
