//! One call: the refusal table, and what an accepted event does.

use crate::cdr::Cdr;
use crate::clock::LAST_SECOND;
use crate::event::{self, Name, Qos, Start, What};
use crate::limits::Set;
use crate::mcdr::Mcdr;
use crate::node::*;
use crate::record::Record;
use crate::subscriber;

/// "In output each record follows the mark C3 5A"
pub const RECORD_MARK: [u8; 2] = [0xC3, 0x5A];

/// "(16) after a traffic event, .. (17) at a tick, .. (19) the record's QoS
/// and tariff changes .. (20) management"; 19 and 20 close M-CDRs too
pub const VOLUME: u8 = 16;
pub const TIME: u8 = 17;
pub const CHANGES: u8 = 19;
pub const INTERVENTION: u8 = 20;

// ---- "Refusal numbers, tried in this order" ----

pub type Row = (u8, fn(&Node, &[u8], usize) -> bool);

/// Each row may rely on the rows before it. W4: "15 attached already, 16 not
/// attached, 17 no free place, where 9, 8 and 10 stand for contexts". W6: "18
/// for an unknown set, 19 for an edition not one higher .., both after 7 and
/// before 8".
pub const TABLE: [Row; 17] = [
    (13, node_unsound),
    (1, under_seven),
    (2, wrong_mark),
    (3, wrong_kind),
    (4, wrong_length),
    (5, field_out_of_range),
    (6, time_out_of_range),
    (7, count_exhausted),
    (18, unknown_set),
    (19, edition_not_next),
    (8, name_not_active),
    (9, name_active),
    (10, all_slots_taken),
    (16, not_attached),
    (15, attached_already),
    (17, no_free_place),
    (11, output_too_long),
];

/// 13 "node breaks a rule under "A sound node""
pub fn node_unsound(node: &Node, _: &[u8], _: usize) -> bool {
    !node.sound()
}

/// 1 "event under 7 octets, empty too"
pub fn under_seven(_: &Node, event: &[u8], _: usize) -> bool {
    event.len() < event::HEAD
}

/// 2 "mark"
pub fn wrong_mark(_: &Node, event: &[u8], _: usize) -> bool {
    event[..2] != event::MARK
}

/// 3 "kind not 1..7"; with the kinds of W4 and W6 "refusals 3 and 4 read so":
/// 1..12
pub fn wrong_kind(_: &Node, event: &[u8], _: usize) -> bool {
    !event::is_kind(event::kind(event))
}

/// 4 "length not the kind's; activate under 36", which are 37 with W6
pub fn wrong_length(_: &Node, event: &[u8], _: usize) -> bool {
    event::whole_length(event) != Some(event.len())
}

/// 5 "a field out of range"
pub fn field_out_of_range(_: &Node, event: &[u8], _: usize) -> bool {
    !event::fields_in_range(event)
}

/// 6 "time above 3,155,759,999 or below the clock"
pub fn time_out_of_range(node: &Node, event: &[u8], _: usize) -> bool {
    let time = event::time(event);
    time > LAST_SECOND || time < node.clock
}

/// 7 "1,000,000,000,000,000 events accepted already"
pub fn count_exhausted(node: &Node, _: &[u8], _: usize) -> bool {
    node.accepted >= MOST_ACCEPTED
}

/// 18 "an unknown set": kinds 1 and 12
pub fn unknown_set(node: &Node, event: &[u8], _: usize) -> bool {
    event::has_set(event::kind(event)) && node.set(event::set(event)).is_none()
}

/// 19 "an edition not one higher, or with none above 65,535": kind 12
pub fn edition_not_next(node: &Node, event: &[u8], _: usize) -> bool {
    if event::kind(event) != event::REPLACE {
        return false;
    }
    let next = node.set(event::set(event)).and_then(Set::next_edition);
    next != Some(event::edition(event))
}

/// 8 "kinds 2, 3, 5, 7: name not active"
pub fn name_not_active(node: &Node, event: &[u8], _: usize) -> bool {
    matches!(event::kind(event), 2 | 3 | 5 | 7) && node.find(event::name(event)).is_none()
}

/// 9 "kind 1: name active"
pub fn name_active(node: &Node, event: &[u8], _: usize) -> bool {
    event::kind(event) == 1 && node.find(event::name(event)).is_some()
}

/// 10 "kind 1: all 16 slots taken"
pub fn all_slots_taken(node: &Node, event: &[u8], _: usize) -> bool {
    event::kind(event) == 1 && node.lowest_free().is_none()
}

/// 16 "not attached": kinds 9, 10 and 11
pub fn not_attached(node: &Node, event: &[u8], _: usize) -> bool {
    matches!(event::kind(event), 9..=11) && node.find_subscriber(event::subscriber(event)).is_none()
}

/// 15 "attached already": kind 8
pub fn attached_already(node: &Node, event: &[u8], _: usize) -> bool {
    event::kind(event) == 8 && node.find_subscriber(event::subscriber(event)).is_some()
}

/// 17 "no free place": kind 8
pub fn no_free_place(node: &Node, event: &[u8], _: usize) -> bool {
    event::kind(event) == 8 && node.lowest_free_place().is_none()
}

/// 11 "this event's output .. longer than the output buffer"
pub fn output_too_long(node: &Node, event: &[u8], room: usize) -> bool {
    let (_, records) = accept(node, event);
    output(&records).len() > room
}

/// The number of the first row that applies, the first `passed` rows left out.
fn refusal(passed: usize, node: &Node, event: &[u8], room: usize) -> Option<u8> {
    let applies = |row: &&Row| row.1(node, event, room);
    TABLE[passed..].iter().find(applies).map(|row| row.0)
}

// ---- the call ----

#[derive(Debug, PartialEq, Eq)]
pub struct Step {
    pub answer: u8,
    pub node: Node,
    pub output: Vec<u8>,
    pub records: Vec<Cdr>,
}

/// "After 1..11, 13 and 24 any node, clock included, is as given, nothing is
/// written .. Accepted: answer 0, output from the buffer's start"
pub fn step(node: &Node, event: &[u8], room: usize) -> Step {
    step_past(0, node, event, room)
}

/// The same of a node that is taken to be sound, whatever it holds: the rows
/// after 13.
pub fn step_of_sound(node: &Node, event: &[u8], room: usize) -> Step {
    step_past(1, node, event, room)
}

fn step_past(passed: usize, node: &Node, event: &[u8], room: usize) -> Step {
    if let Some(answer) = refusal(passed, node, event, room) {
        return Step { answer, node: node.clone(), output: Vec::new(), records: Vec::new() };
    }
    let (node, records) = accept(node, event);
    Step { answer: 0, node, output: output(&records), records }
}

/// "In output each record follows the mark C3 5A, and each is written into the
/// part of the buffer that begins where the last ended."
pub fn output(records: &[Cdr]) -> Vec<u8> {
    let mut octets = Vec::new();
    for record in records {
        octets.extend(RECORD_MARK);
        octets.extend(record.octets());
    }
    octets
}

// ---- "What an event does" ----

/// The node after an event that no row before 11 refuses, and its records.
pub fn accept(node: &Node, event: &[u8]) -> (Node, Vec<Cdr>) {
    let mut node = node.clone();
    let now = event::time(event);
    node.clock = now;
    node.accepted += 1;
    let what = event::what(event);
    let records = if event::of_subscriber(event::kind(event)) {
        of_subscriber(&mut node, what, now).into_iter().map(Cdr::M).collect()
    } else {
        of_contexts(&mut node, what, now).into_iter().map(Cdr::S).collect()
    };
    (node, records)
}

/// The events of 01, and of W6. They do nothing to subscribers.
fn of_contexts(node: &mut Node, what: What, now: u32) -> Vec<Record> {
    match what {
        What::Activate(name, start) => {
            activate(node, name, *start, now);
            Vec::new()
        }
        What::Traffic(name, uplink, downlink) => {
            let slot = node.find(name).unwrap();
            traffic(node, slot, uplink, downlink, now)
        }
        What::Qos(name, qos) => {
            let slot = node.find(name).unwrap();
            qos_change(node, slot, qos, now)
        }
        What::Tariff => tariff(node, now),
        What::Release(name, cause) => {
            let slot = node.find(name).unwrap();
            vec![release(node, slot, cause, now)]
        }
        What::Tick => tick(node, now),
        What::Management(name) => {
            let slot = node.find(name).unwrap();
            vec![close_and_open(node, slot, INTERVENTION, now)]
        }
        What::Replace(set, next) => {
            replace(node, set, next);
            Vec::new()
        }
        other => panic!("an event of a subscriber: {other:?}"),
    }
}

/// The events of W4. They do nothing to contexts.
fn of_subscriber(node: &mut Node, what: What, now: u32) -> Option<Mcdr> {
    match what {
        What::Attach(imsi, place) => {
            subscriber::attach(node, imsi, place, now);
            None
        }
        What::Location(imsi, place) => subscriber::location_change(node, imsi, place, now),
        What::SubscriberManagement(imsi) => Some(subscriber::manage(node, imsi, now)),
        What::Detach(imsi, cause) => Some(subscriber::detach(node, imsi, cause, now)),
        other => panic!("no event of a subscriber: {other:?}"),
    }
}

/// "Activation takes the lowest free slot, opens a record now with empty
/// counters, no containers, change count 0." W5: "the stored context, the
/// record .. use that name", the lowered one. W6: with the limits of its set.
fn activate(node: &mut Node, name: Name, start: Start, now: u32) {
    let slot = node.lowest_free().unwrap();
    let start = Start { apn: event::lowered(&start.apn), ..start };
    let (qos, limits) = (start.qos, node.limits_of(start.set));
    node.slots[slot] = Some(Context {
        name,
        start,
        closed: 0,
        opened: now,
        limits,
        containers: Vec::new(),
        changes: 0,
        qos,
        uplink: 0,
        downlink: 0,
    });
}

/// W6: a set is "replaced whole"; that "cuts nothing and closes nothing".
fn replace(node: &mut Node, set: u8, next: Set) {
    node.sets[usize::from(set) - 1] = next;
}

/// "Traffic adds both volumes; a report is never divided." Then condition 16.
/// W6: "A record keeps the limits it opened with until it closes", for each of
/// the conditions.
fn traffic(node: &mut Node, slot: usize, uplink: u32, downlink: u32, now: u32) -> Vec<Record> {
    let context = node.slots[slot].as_mut().unwrap();
    context.uplink += u64::from(uplink);
    context.downlink += u64::from(downlink);
    if !volume_met(context, context.limits.volume) {
        return Vec::new();
    }
    vec![close_and_open(node, slot, VOLUME, now)]
}

/// "(16) .. uplink plus downlink since the record opened is at least the
/// volume limit"
fn volume_met(context: &Context, limit: u64) -> bool {
    context.record_volume() >= limit
}

/// "QoS to a different profile ends the container, condition 0. To the same
/// profile: no change."
fn qos_change(node: &mut Node, slot: usize, qos: Qos, now: u32) -> Vec<Record> {
    let context = node.slots[slot].as_mut().unwrap();
    if context.qos == qos {
        return Vec::new();
    }
    change(node, slot, QOS_CHANGE, qos, now).into_iter().collect()
}

/// "Tariff ends the container of every context, condition 1, empty ones
/// included. .. Tariff and tick take contexts in slot order."
fn tariff(node: &mut Node, now: u32) -> Vec<Record> {
    let mut records = Vec::new();
    for slot in in_slot_order(node) {
        let qos = node.slots[slot].as_ref().unwrap().qos;
        records.extend(change(node, slot, TARIFF_TIME, qos, now));
    }
    records
}

/// "(17) at a tick, now minus opening is at least the time limit"
fn tick(node: &mut Node, now: u32) -> Vec<Record> {
    let mut records = Vec::new();
    for slot in in_slot_order(node) {
        let context = node.slots[slot].as_ref().unwrap();
        let open = now - context.opened;
        if open >= context.limits.time {
            records.push(close_and_open(node, slot, TIME, now));
        }
    }
    records
}

fn in_slot_order(node: &Node) -> Vec<usize> {
    (0..SLOTS).filter(|slot| node.slots[*slot].is_some()).collect()
}

/// A QoS or tariff change: it ends the container with its condition, or closes
/// the record: "(19) the record's QoS and tariff changes reach the change
/// limit". The closed container holds the old QoS, the next record the new.
fn change(node: &mut Node, slot: usize, condition: u8, qos: Qos, now: u32) -> Option<Record> {
    let context = node.slots[slot].as_mut().unwrap();
    context.changes += 1;
    if context.changes >= u32::from(context.limits.changes) {
        let record = close_and_open(node, slot, CHANGES, now);
        node.slots[slot].as_mut().unwrap().qos = qos;
        return Some(record);
    }
    end_container(context, condition, now);
    context.qos = qos;
    None
}

/// The running container joins the ended ones, and an empty one runs.
fn end_container(context: &mut Context, condition: u8, now: u32) {
    context.containers.push(Container {
        qos: context.qos,
        uplink: context.uplink,
        downlink: context.downlink,
        condition,
        time: now,
    });
    context.uplink = 0;
    context.downlink = 0;
}

/// "(0, 4, 18) release with that cause": the slot is free afterwards.
fn release(node: &mut Node, slot: usize, cause: u8, now: u32) -> Record {
    let record = close(node, slot, cause, now);
    node.slots[slot] = None;
    record
}

/// "Except at release, the next record opens at the same time with the QoS now
/// in force." W6: "the next takes the current edition"
fn close_and_open(node: &mut Node, slot: usize, cause: u8, now: u32) -> Record {
    let record = close(node, slot, cause, now);
    let limits = node.limits_of(node.slots[slot].as_ref().unwrap().start.set);
    let context = node.slots[slot].as_mut().unwrap();
    context.closed += 1;
    context.opened = now;
    context.limits = limits;
    context.containers.clear();
    context.changes = 0;
    record
}

/// "Closing ends the running container once, with condition 2 (also under
/// 19)."
fn close(node: &mut Node, slot: usize, cause: u8, now: u32) -> Record {
    let profile = node.profile.clone();
    let context = node.slots[slot].as_mut().unwrap();
    end_container(context, RECORD_CLOSURE, now);
    Record {
        network_initiated: context.start.flags & 1 != 0,
        imsi: context.start.imsi,
        sgsn: profile.sgsn,
        name: context.name,
        apn: context.start.apn.clone(),
        pdp_type: context.start.pdp_type,
        address: context.start.address,
        containers: context.containers.clone(),
        opened: context.opened,
        offset: profile.offset,
        sgsn_change: sgsn_change(context),
        cause,
        number: number(context, cause),
        node_id: profile.node_id,
    }
}

pub fn is_release(cause: u8) -> bool {
    matches!(cause, 0 | 4 | 18)
}

/// "Number: 1 for the first, absent if release closes an activation with no
/// earlier record."
fn number(context: &Context, cause: u8) -> Option<u64> {
    let sole = is_release(cause) && context.closed == 0;
    (!sole).then_some(context.closed + 1)
}

/// "92 SGSN change (FF, only in the first record of an activation with bit 1)"
fn sgsn_change(context: &Context) -> bool {
    context.closed == 0 && context.start.flags & 2 != 0
}
