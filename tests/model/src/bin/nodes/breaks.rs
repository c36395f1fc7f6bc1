//! Ways to break each rule of "A sound node", each part of a rule by itself.

use crate::break_profile as profile;
use crate::break_subscribers as subscribers;
use crate::limits::any_active;
use crate::runs::{apn_character, imsi, raised};
use crate::sound::{record_volume, Range, RANGES};
use crate::stored::{Container, Context, Stored, APN, PLACES, SLOTS};
use charging_model::random::Random;

/// The rule and the part that is broken, and how; nothing where this node has
/// no place for it.
pub struct Breaker {
    pub rule: &'static str,
    pub part: &'static str,
    pub apply: fn(&mut Stored, &mut Random) -> Option<()>,
}

macro_rules! breakers {
    ($($rule:literal $part:literal $apply:expr;)*) => {
        pub const BREAKERS: &[Breaker] =
            &[$(Breaker { rule: $rule, part: $part, apply: $apply }),*];
    };
}

breakers! {
    "number of sets" "whole" profile::no_set;
    "number of sets" "whole" profile::too_many_sets;
    "profile's limits" "volume" |n, r| profile::given(n, r, Range::GivenVolume);
    "profile's limits" "time" |n, r| profile::given(n, r, Range::GivenTime);
    "profile's limits" "changes" |n, r| profile::given(n, r, Range::GivenChanges);
    "profile's unused limits" "volume" |n, r| profile::given_unused(n, r, "volume");
    "profile's unused limits" "time" |n, r| profile::given_unused(n, r, "time");
    "profile's unused limits" "changes" |n, r| profile::given_unused(n, r, "changes");
    "editions" "whole" profile::edition;
    "sets" "volume" |n, r| profile::set(n, r, Range::SetVolume);
    "sets" "time" |n, r| profile::set(n, r, Range::SetTime);
    "sets" "changes" |n, r| profile::set(n, r, Range::SetChanges);
    "unused set" "edition" profile::edition_unused;
    "unused set" "volume" |n, r| profile::set_unused(n, r, "volume");
    "unused set" "time" |n, r| profile::set_unused(n, r, "time");
    "unused set" "changes" |n, r| profile::set_unused(n, r, "changes");
    "context's set" "zero" profile::set_zero;
    "context's set" "above" profile::set_above;
    "record's limits" "volume" |n, r| profile::record(n, r, Range::RecordVolume);
    "record's limits" "time" |n, r| profile::record(n, r, Range::RecordTime);
    "record's limits" "changes" |n, r| profile::record(n, r, Range::RecordChanges);
    "offset" "whole" profile::offset;
    "node ID's length" "whole" profile::node_id_length;
    "node ID's characters" "whole" profile::node_id_character_wrong;
    "node ID's unused octets" "whole" profile::node_id_unused;
    "node ID's unused octets" "whole" profile::node_id_unused_far;
    "clock" "whole" |n, r| done(n.clock = above(r, Range::Clock, u32::MAX.into()) as u32);
    "accepted count" "whole" |n, r| done(n.accepted = above(r, Range::Accepted, u64::MAX));
    "names" "whole" names;
    "active" "whole" |n, r| done(slot(n, r).active = above_of(r, 1, 255) as u8);
    "free slot" "flags" |n, r| done(free(n, r)?.flags = some(r) as u8);
    "free slot" "set" |n, r| done(free(n, r)?.set = some(r) as u8);
    "free slot" "volume limit" |n, r| done(free(n, r)?.limits.volume = some64(r));
    "free slot" "time limit" |n, r| done(free(n, r)?.limits.seconds = some32(r));
    "free slot" "change limit" |n, r| done(free(n, r)?.limits.changes = some(r) as u8);
    "free slot" "id" |n, r| done(free(n, r)?.id = some32(r));
    "free slot" "ggsn" |n, r| done(free(n, r)?.ggsn = some32(r));
    "free slot" "imsi" |n, r| done(free(n, r)?.imsi[r.below(8) as usize] = some(r) as u8);
    "free slot" "apn" |n, r| done(free(n, r)?.apn[edge(r, 0, APN)] = some(r) as u8);
    "free slot" "apnlen" |n, r| done(free(n, r)?.apnlen = some64(r));
    "free slot" "pdptype" |n, r| done(free(n, r)?.pdptype = some16(r));
    "free slot" "address" |n, r| done(free(n, r)?.address = some32(r));
    "free slot" "qos" |n, r| done(free(n, r)?.qos[r.below(5) as usize] = some(r) as u8);
    "free slot" "running uplink" |n, r| done(free(n, r)?.uplink = some64(r));
    "free slot" "running downlink" |n, r| done(free(n, r)?.downlink = some64(r));
    "free slot" "opening's seconds" |n, r| done(free(n, r)?.opening.seconds = some32(r));
    "free slot" "opening's zone" |n, r| done(free(n, r)?.opening.zone = some16(r));
    "free slot" "changes" |n, r| done(free(n, r)?.changes = some(r) as u8);
    "free slot" "reliability" |n, r| done(free_place(n, r)?.qos[0] = some(r) as u8);
    "free slot" "delay" |n, r| done(free_place(n, r)?.qos[1] = some(r) as u8);
    "free slot" "precedence" |n, r| done(free_place(n, r)?.qos[2] = some(r) as u8);
    "free slot" "peak" |n, r| done(free_place(n, r)?.qos[3] = some(r) as u8);
    "free slot" "mean" |n, r| done(free_place(n, r)?.qos[4] = some(r) as u8);
    "free slot" "uplink" |n, r| done(free_place(n, r)?.uplink = some64(r));
    "free slot" "downlink" |n, r| done(free_place(n, r)?.downlink = some64(r));
    "free slot" "condition" |n, r| done(free_place(n, r)?.condition = some(r) as u8);
    "free slot" "seconds" |n, r| done(free_place(n, r)?.time.seconds = some32(r));
    "free slot" "zone" |n, r| done(free_place(n, r)?.time.zone = some16(r));
    "free slot" "count" |n, r| done(free(n, r)?.count = some64(r));
    "free slot" "closed" |n, r| done(free(n, r)?.closed = some64(r));
    "free slot" "imsi" |n, r| done(used(n, r)?.active = 0);
    "flags" "whole" |n, r| done(used(n, r)?.flags = above(r, Range::Flags, 255) as u8);
    "IMSI" "digits" imsi_digits;
    "IMSI" "later halves" imsi_later;
    "APN's length" "whole" apn_length;
    "APN's characters" "capital" apn_capital;
    "APN's characters" "capital" apn_as_spelled;
    "APN's characters" "other" apn_character_wrong;
    "APN's unused octets" "whole" apn_unused;
    "APN's unused octets" "whole" apn_unused_far;
    "APN's unused octets" "whole" apn_unused_far;
    "APN's unused octets" "whole" apn_unused_far;
    "QoS" "reliability" |n, r| qos(n, r, 0);
    "QoS" "delay" |n, r| qos(n, r, 1);
    "QoS" "precedence" |n, r| qos(n, r, 2);
    "QoS" "peak" |n, r| qos(n, r, 3);
    "QoS" "mean" |n, r| qos(n, r, 4);
    "container's QoS" "reliability" |n, r| container_qos(n, r, 0);
    "container's QoS" "delay" |n, r| container_qos(n, r, 1);
    "container's QoS" "precedence" |n, r| container_qos(n, r, 2);
    "container's QoS" "peak" |n, r| container_qos(n, r, 3);
    "container's QoS" "mean" |n, r| container_qos(n, r, 4);
    "stored offset" "opening" |n, r| done(other_zone(&mut used(n, r)?.opening.zone, r));
    "stored offset" "container" |n, r| done(other_zone(&mut container(n, r)?.time.zone, r));
    "unused place" "reliability" |n, r| done(place(n, r)?.qos[0] = some(r) as u8);
    "unused place" "delay" |n, r| done(place(n, r)?.qos[1] = some(r) as u8);
    "unused place" "precedence" |n, r| done(place(n, r)?.qos[2] = some(r) as u8);
    "unused place" "peak" |n, r| done(place(n, r)?.qos[3] = some(r) as u8);
    "unused place" "mean" |n, r| done(place(n, r)?.qos[4] = some(r) as u8);
    "unused place" "uplink" |n, r| done(place(n, r)?.uplink = some64(r));
    "unused place" "downlink" |n, r| done(place(n, r)?.downlink = some64(r));
    "unused place" "condition" |n, r| done(place(n, r)?.condition = some(r) as u8);
    "unused place" "seconds" |n, r| done(place(n, r)?.time.seconds = some32(r));
    "unused place" "zone" |n, r| done(place(n, r)?.time.zone = some16(r));
    "closed records" "whole" closed;
    "change count" "whole" change_count;
    "change count" "whole" count_high;
    "container count" "whole" container_count;
    "container count" "whole" profile::count_at_own;
    "conditions" "whole" condition;
    "times" "opening, container" opening_late;
    "times" "container, container" container_late;
    "times" "container, clock" clock_early;
    "times" "opening, clock" opening_beyond;
    "QoS between containers" "same after 0, next" |n, r| turn(n, r, 1, false);
    "QoS between containers" "same after 0, running" |n, r| turn(n, r, 1, true);
    "QoS between containers" "other after 1, next" |n, r| turn(n, r, 0, false);
    "QoS between containers" "other after 1, running" |n, r| turn(n, r, 0, true);
    "QoS between containers" "same after 0, running" same_running;
    "QoS between containers" "other after 1, running" other_running;
    "volumes" "whole" volumes;
    "volumes" "whole" volumes_wrap;
    "volumes" "whole" profile::volumes_at_own;
    "attached" "whole" subscribers::attached;
    "free place" "imsi" subscribers::free_imsi;
    "free place" "opening's lac" |n, r| done(subscribers::free(n, r)?.place.lac = some16(r));
    "free place" "opening's rac" |n, r| done(subscribers::free(n, r)?.place.rac = some(r) as u8);
    "free place" "opening's seconds"
        |n, r| done(subscribers::free(n, r)?.opening.seconds = some32(r));
    "free place" "opening's zone" |n, r| done(subscribers::free(n, r)?.opening.zone = some16(r));
    "free place" "lac" |n, r| done(subscribers::free_change(n, r)?.place.lac = some16(r));
    "free place" "rac" |n, r| done(subscribers::free_change(n, r)?.place.rac = some(r) as u8);
    "free place" "seconds" |n, r| done(subscribers::free_change(n, r)?.time.seconds = some32(r));
    "free place" "zone" |n, r| done(subscribers::free_change(n, r)?.time.zone = some16(r));
    "free place" "count" |n, r| done(subscribers::free(n, r)?.count = some64(r));
    "free place" "closed" |n, r| done(subscribers::free(n, r)?.closed = some64(r));
    "free place" "imsi" |n, r| done(subscribers::taken(n, r)?.active = 0);
    "unused change" "lac" |n, r| done(subscribers::unused(n, r)?.place.lac = some16(r));
    "unused change" "rac" |n, r| done(subscribers::unused(n, r)?.place.rac = some(r) as u8);
    "unused change" "seconds" |n, r| done(subscribers::unused(n, r)?.time.seconds = some32(r));
    "unused change" "zone" |n, r| done(subscribers::unused(n, r)?.time.zone = some16(r));
    "IMSIs" "whole" subscribers::imsis;
    "subscriber's IMSI" "digits" subscribers::imsi_digits;
    "subscriber's IMSI" "later halves" subscribers::imsi_later;
    "subscriber's offset" "opening"
        |n, r| done(other_zone(&mut subscribers::taken(n, r)?.opening.zone, r));
    "subscriber's offset" "change"
        |n, r| done(other_zone(&mut subscribers::change(n, r)?.time.zone, r));
    "subscriber's closed records" "whole" subscribers::closed;
    "location changes" "whole" subscribers::fifteenth;
    "location changes" "whole" subscribers::count_high;
    "places" "opening, change" subscribers::same_as_opening;
    "places" "change, change" subscribers::same_as_before;
    "subscriber's times" "opening, change" subscribers::opening_late;
    "subscriber's times" "change, change" subscribers::change_late;
    "subscriber's times" "change, clock" subscribers::clock_early;
    "subscriber's times" "opening, clock" subscribers::opening_beyond;
}

// ---- values ----

pub fn done(_: ()) -> Option<()> {
    Some(())
}

/// A value above a number, if there is one; the next as often as others.
pub fn above_of(random: &mut Random, high: u64, most: u64) -> u64 {
    match random.below(6) {
        _ if high >= most => most,
        0..=2 => high + 1,
        3 => most,
        4 => high + 1 + random.sized(most - high - 1),
        _ => random.between(high + 1, most),
    }
}

pub fn above(random: &mut Random, range: Range, most: u64) -> u64 {
    above_of(random, RANGES[range as usize].3 as u64, most)
}

/// A value that is not zero in so many bits: one bit of it as often as more.
fn bits(random: &mut Random, width: u64) -> u64 {
    let mask = u64::MAX >> (64 - width);
    match random.below(4) {
        0 => 1,
        1 => 1 << random.below(width),
        2 => mask,
        _ => (random.next() & mask).max(1),
    }
}

pub fn some(random: &mut Random) -> u64 {
    bits(random, 8)
}

pub fn some16(random: &mut Random) -> u16 {
    bits(random, 16) as u16
}

pub fn some32(random: &mut Random) -> u32 {
    bits(random, 32) as u32
}

pub fn some64(random: &mut Random) -> u64 {
    bits(random, 64)
}

/// A place, the first and the last more often than others.
pub fn edge(random: &mut Random, from: usize, to: usize) -> usize {
    match random.below(4) {
        0 => from,
        1 => to - 1,
        _ => random.between(from as u64, to as u64 - 1) as usize,
    }
}

fn other_zone(zone: &mut u16, random: &mut Random) {
    *zone = match random.below(4) {
        0 => zone.wrapping_add(1),
        1 => zone.wrapping_sub(1),
        2 if *zone != 0 => 0,
        _ => *zone ^ some16(random),
    };
}

// ---- places ----

fn slot<'a>(node: &'a mut Stored, random: &mut Random) -> &'a mut Context {
    &mut node.contexts[edge(random, 0, SLOTS)]
}

pub fn used<'a>(node: &'a mut Stored, random: &mut Random) -> Option<&'a mut Context> {
    any_active(node, random).map(|at| &mut node.contexts[at])
}

fn free<'a>(node: &'a mut Stored, random: &mut Random) -> Option<&'a mut Context> {
    let free = node.slots(0);
    if free.is_empty() {
        return None;
    }
    Some(&mut node.contexts[free[edge(random, 0, free.len())]])
}

fn free_place<'a>(node: &'a mut Stored, random: &mut Random) -> Option<&'a mut Container> {
    let at = edge(random, 0, PLACES);
    free(node, random).map(|c| &mut c.containers[at])
}

/// An active context with so many containers, and their count.
fn with<'a>(
    node: &'a mut Stored,
    random: &mut Random,
    fewest: usize,
) -> Option<(&'a mut Context, usize)> {
    let context = used(node, random)?;
    let count = context.used().len();
    (count >= fewest).then_some((context, count))
}

fn container<'a>(node: &'a mut Stored, random: &mut Random) -> Option<&'a mut Container> {
    let (context, count) = with(node, random, 1)?;
    Some(&mut context.containers[edge(random, 0, count)])
}

/// An unused container place of an active context.
fn place<'a>(node: &'a mut Stored, random: &mut Random) -> Option<&'a mut Container> {
    let (context, count) = with(node, random, 0)?;
    (count < PLACES).then(|| &mut context.containers[edge(random, count, PLACES)])
}

// ---- names ----

/// The name of one context in another, or a context twice.
fn names(node: &mut Stored, random: &mut Random) -> Option<()> {
    let active = node.slots(1);
    let one = node.contexts[any_active(node, random)?];
    let other = match free(node, random) {
        Some(free) if active.len() < 2 || random.percent(20) => {
            return done(*free = one);
        }
        _ => random.pick(&active),
    };
    let other = &mut node.contexts[other];
    let differs = other.name() != one.name();
    (other.id, other.ggsn) = (one.id, one.ggsn);
    differs.then_some(())
}

// ---- the fields of a context ----

fn imsi_digits(node: &mut Stored, random: &mut Random) -> Option<()> {
    done(used(node, random)?.imsi = imsi_of_wrong_length(random))
}

fn imsi_later(node: &mut Stored, random: &mut Random) -> Option<()> {
    done(used(node, random)?.imsi = imsi_with_later_half(random))
}

pub fn imsi_of_wrong_length(random: &mut Random) -> [u8; 8] {
    let digits = random.pick(&[5, 5, 16, 16, 0, 1, 4]);
    imsi(random, digits)
}

/// A half after the digits is not F.
pub fn imsi_with_later_half(random: &mut Random) -> [u8; 8] {
    let digits = random.pick(&[6, 8, 14, 15]);
    let half = edge(random, digits, 16);
    let fewest = if half == digits { 10 } else { 0 };
    let wrong = random.between(fewest, 14) as u8;
    let mut imsi = imsi(random, digits);
    let octet = &mut imsi[half / 2];
    *octet = if half % 2 == 0 { *octet & 0xF0 | wrong } else { *octet & 15 | wrong << 4 };
    imsi
}

fn apn_length(node: &mut Stored, random: &mut Random) -> Option<()> {
    let context = used(node, random)?;
    if random.percent(40) {
        context.apn = [0; APN];
        return done(context.apnlen = 0);
    }
    context.apn = [0; APN].map(|_| apn_character(random));
    done(context.apnlen = above(random, Range::ApnLength, u64::MAX))
}

/// One octet is a capital, the first and the last of them more often.
fn apn_capital(node: &mut Stored, random: &mut Random) -> Option<()> {
    let context = used(node, random)?;
    if context.apn().is_empty() {
        return None;
    }
    let at = edge(random, 0, context.apn().len());
    done(context.apn[at] = b'A' + edge(random, 0, 26) as u8)
}

/// Letters are capitals, as an event may have them.
fn apn_as_spelled(node: &mut Stored, random: &mut Random) -> Option<()> {
    let context = used(node, random)?;
    let stored = context.apn;
    context.apn = stored.map(|c| raised(random, c));
    (context.apn != stored).then_some(())
}

fn apn_character_wrong(node: &mut Stored, random: &mut Random) -> Option<()> {
    let context = used(node, random)?;
    if context.apn().is_empty() {
        return None;
    }
    let at = edge(random, 0, context.apn().len());
    done(context.apn[at] = random.pick(b",/:@[`{,/:@[`{_ \0\x7F\xC1\xFF"))
}

fn apn_unused(node: &mut Stored, random: &mut Random) -> Option<()> {
    let context = used(node, random)?;
    let length = context.apn().len();
    if length == APN {
        return None;
    }
    done(context.apn[edge(random, length, APN)] = some(random) as u8)
}

/// Of a short APN, so that every octet is met.
fn apn_unused_far(node: &mut Stored, random: &mut Random) -> Option<()> {
    let context = used(node, random)?;
    if context.apn().len() != 1 {
        return None;
    }
    done(context.apn[random.between(1, APN as u64 - 1) as usize] = some(random) as u8)
}

const LEVELS: [Range; 5] =
    [Range::Reliability, Range::Delay, Range::Precedence, Range::Peak, Range::Mean];

fn qos(node: &mut Stored, random: &mut Random, level: usize) -> Option<()> {
    let context = used(node, random)?;
    done(context.qos[level] = above(random, LEVELS[level], 255) as u8)
}

fn container_qos(node: &mut Stored, random: &mut Random, level: usize) -> Option<()> {
    let (context, count) = with(node, random, 1)?;
    let at = edge(random, 0, count);
    // most of them where nothing asks for the same QoS
    let apart = context.containers[at].condition == 0
        && (at == 0 || context.containers[at - 1].condition == 0);
    if !apart && random.percent(80) {
        return None;
    }
    done(context.containers[at].qos[level] = above(random, LEVELS[level], 255) as u8)
}

// ---- counts ----

fn closed(node: &mut Stored, random: &mut Random) -> Option<()> {
    let accepted = node.accepted;
    let context = used(node, random)?;
    done(
        context.closed =
            if random.percent(50) { accepted } else { above_of(random, accepted, u64::MAX) },
    )
}

fn change_count(node: &mut Stored, random: &mut Random) -> Option<()> {
    let context = used(node, random)?;
    done(
        context.changes = match random.below(3) {
            0 => context.changes.checked_add(1)?,
            1 => context.changes.checked_sub(1)?,
            _ => context.changes ^ some(random) as u8,
        },
    )
}

/// A count that is wrong in its higher octets, or by one.
fn count_high(node: &mut Stored, random: &mut Random) -> Option<()> {
    let context = used(node, random)?;
    let more = match random.below(3) {
        0 => 1,
        1 => 1 << random.between(8, 63),
        _ => some64(random),
    };
    done(context.count = context.count.checked_add(more)?)
}

/// A record's change limit is its count of containers; or all its places are
/// used.
fn container_count(node: &mut Stored, random: &mut Random) -> Option<()> {
    let (context, count) = with(node, random, 1)?;
    if random.percent(30) && count == PLACES - 1 {
        let mut last = context.containers[count - 1];
        last.condition = 1;
        last.qos = context.qos;
        (last.uplink, last.downlink) = (0, 0);
        context.containers[count] = last;
        context.count += 1;
        return done(context.changes = context.changes.checked_add(1)?);
    }
    done(context.limits.changes = count as u8)
}

// ---- containers ----

fn condition(node: &mut Stored, random: &mut Random) -> Option<()> {
    let container = container(node, random)?;
    if container.condition == 0 && random.percent(70) {
        return None;
    }
    done(container.condition = above(random, Range::Condition, 255) as u8)
}

/// A time after another one.
pub fn later(random: &mut Random, than: u32) -> u32 {
    above_of(random, than.min(u32::MAX - 1).into(), u32::MAX.into()) as u32
}

fn opening_late(node: &mut Stored, random: &mut Random) -> Option<()> {
    let (context, _) = with(node, random, 1)?;
    done(context.opening.seconds = later(random, context.containers[0].time.seconds))
}

fn container_late(node: &mut Stored, random: &mut Random) -> Option<()> {
    let (context, count) = with(node, random, 2)?;
    let at = edge(random, 0, count - 1);
    let next = context.containers[at + 1].time.seconds;
    if random.percent(50) {
        return done(context.containers[at].time.seconds = later(random, next));
    }
    let before = context.containers[at].time.seconds;
    done(context.containers[at + 1].time.seconds = before.checked_sub(1)?)
}

fn clock_early(node: &mut Stored, random: &mut Random) -> Option<()> {
    let clock = node.clock;
    let (context, count) = with(node, random, 1)?;
    let last = &mut context.containers[count - 1].time.seconds;
    if random.percent(70) {
        return done(*last = later(random, clock));
    }
    let last = *last;
    done(node.clock = last.checked_sub(1)?)
}

fn opening_beyond(node: &mut Stored, random: &mut Random) -> Option<()> {
    let clock = node.clock;
    let (context, count) = with(node, random, 0)?;
    (count == 0).then(|| context.opening.seconds = later(random, clock))
}

/// A container's condition is turned from this to the other; of the last one,
/// or of one before it.
fn turn(node: &mut Stored, random: &mut Random, from: u8, last: bool) -> Option<()> {
    let (context, count) = with(node, random, if last { 1 } else { 2 })?;
    let at = if last { count - 1 } else { edge(random, 0, count - 1) };
    let container = &mut context.containers[at];
    (container.condition == from).then(|| container.condition = 1 - from)
}

/// The QoS in force is set back to the last container's, after condition 0.
fn same_running(node: &mut Stored, random: &mut Random) -> Option<()> {
    let (context, count) = with(node, random, 1)?;
    let last = context.containers[count - 1];
    (last.condition == 0).then(|| context.qos = last.qos)
}

/// One level of the QoS in force is another, after condition 1.
fn other_running(node: &mut Stored, random: &mut Random) -> Option<()> {
    let (context, count) = with(node, random, 1)?;
    let at = random.below(5) as usize;
    let level = context.qos[at];
    (context.containers[count - 1].condition == 1)
        .then(|| context.qos[at] = if level == 0 { 1 } else { level - 1 })
}

// ---- volumes ----

/// A volume of the open record.
fn a_volume<'a>(context: &'a mut Context, random: &mut Random) -> &'a mut u64 {
    let count = context.used().len();
    let at = edge(random, 0, count + 1);
    let (up, down) = match at == count {
        true => (&mut context.uplink, &mut context.downlink),
        false => (&mut context.containers[at].uplink, &mut context.containers[at].downlink),
    };
    if random.percent(50) {
        up
    } else {
        down
    }
}

/// The sum meets the limit, or passes it.
fn volumes(node: &mut Stored, random: &mut Random) -> Option<()> {
    let context = used(node, random)?;
    let missing = context.limits.volume.checked_sub(record_volume(context).try_into().ok()?)?;
    let beyond = match random.below(4) {
        0 | 1 => 0,
        2 => random.sized(1 << 41),
        _ => 1 << random.between(40, 62),
    };
    let volume = a_volume(context, random);
    done(*volume = volume.checked_add(missing)?.checked_add(beyond)?)
}

/// The sum is far beyond 64 bits, or just beyond: what is left of it is small.
fn volumes_wrap(node: &mut Stored, random: &mut Random) -> Option<()> {
    let context = used(node, random)?;
    let volume = a_volume(context, random);
    if random.percent(30) {
        return done(*volume = u64::MAX);
    }
    *volume = 0;
    let rest = record_volume(context) as u64;
    let volume = a_volume(context, random);
    let missing = 0u64.wrapping_sub(rest);
    if *volume == 0 && missing != 0 {
        return done(*volume = missing);
    }
    (context.uplink, context.downlink) = (1 << 63, 1 << 63);
    Some(())
}
