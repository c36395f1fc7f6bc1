//! What the sets of limits (02, W6) have to meet among the calls.

use charging_model::batch::{Batch, Batched};
use charging_model::cdr::Cdr;
use charging_model::event::{self, Name, What};
use charging_model::limits::{Limits, Set, MOST_CHANGES, MOST_TIME, MOST_VOLUME, SETS};
use charging_model::node::{Context, Node};
use charging_model::step::{is_release, Step};
use std::collections::{BTreeMap, BTreeSet};

/// The answers that a replacement can get in a run.
const ANSWERS: [u8; 7] = [0, 2, 4, 5, 6, 18, 19];

/// Answers with a later row of the table that would have applied as well, by
/// the kind of the event. An activation or a replacement is never 8 or 11.
const PAIRS: [(u8, u8, u8); 16] = [
    (event::ACTIVATE, 2, 18),
    (event::ACTIVATE, 5, 18),
    (event::ACTIVATE, 6, 18),
    (event::ACTIVATE, 18, 9),
    (event::ACTIVATE, 18, 10),
    (event::REPLACE, 2, 4),
    (event::REPLACE, 2, 5),
    (event::REPLACE, 2, 18),
    (event::REPLACE, 2, 19),
    (event::REPLACE, 4, 6),
    (event::REPLACE, 5, 6),
    (event::REPLACE, 5, 18),
    (event::REPLACE, 5, 19),
    (event::REPLACE, 6, 18),
    (event::REPLACE, 6, 19),
    (event::REPLACE, 18, 19),
];

const NAMES: &[&str] = &[
    // replacements
    "replacement of 22 octets",
    "replacement of 23 octets",
    "replacement of 24 octets",
    "volume limit 0",
    "volume limit 1",
    "volume limit 10^12",
    "volume limit 10^12 + 1",
    "time limit 0",
    "time limit 1",
    "time limit 604,800",
    "time limit 604,801",
    "change limit 0",
    "change limit 1",
    "change limit 15",
    "change limit 16",
    "set 0 replaced",
    "set after the last replaced",
    "set 9 replaced where there are eight",
    "set 255 replaced",
    "edition 0",
    "edition one lower",
    "edition equal",
    "edition two higher",
    "edition that is the next in its low octet alone",
    "edition that is the next with its octets turned",
    "edition 65,535",
    "edition 2 taken",
    "edition 3 taken",
    "edition 256 taken",
    "edition 257 or above taken",
    "set 1 replaced, the only one",
    "set 1 replaced, one of several",
    "set 8 replaced",
    "replacement by the same limits",
    "replacement with no context",
    "replacement with contexts of other sets alone",
    "replacement with several contexts of the set",
    "replacement with subscribers attached",
    "replacement where an open record is older than the edition before",
    "replacement of a volume limit by less than is counted",
    "replacement of a volume limit by what is counted",
    "replacement of a time limit by less than the record is open",
    "replacement of a change limit by less than is counted",
    "replacement at the time of the clock",
    "replacement later than the clock",
    "replacement with room 0",
    "replacement as the last event before an activation of the set",
    // activations
    "set 0 activated",
    "set after the last activated",
    "set 9 activated where there are eight",
    "set 255 activated",
    "set 1 activated, the only one",
    "set 1 activated, one of several",
    "set 8 activated",
    "last of two to seven sets activated",
    "set of a later edition activated",
    "contexts of eight sets at once",
    "contexts of one set with different limits",
    "16 contexts of several sets",
    "20 and the next record has other limits",
    "release of a record that is older than the edition in force",
    // batches
    "batch with no closing by the record's own limit, the one in force is met",
    "batch with one closing, the next record has other limits",
    "batch with two closings, the second by a lower limit",
    "batch with two closings, the second by a higher limit",
    "batch refused for room after a closing that brought other limits",
];

/// What closes a record, or does not yet, by each of the three limits.
const BY_VOLUME: [&str; 7] = [
    "16 by the record's own limit, the one in force is higher",
    "16 not yet, the one in force is met",
    "16 by the new limit, the one before was higher",
    "16 not yet by the new limit, the one before is met",
    "16 by the set's limit, another set's is higher",
    "16 not yet, another set's limit is met",
    "16 not yet, the profile's limit of the set is met",
];
const BY_TIME: [&str; 7] = [
    "17 by the record's own limit, the one in force is higher",
    "17 not yet, the one in force is met",
    "17 by the new limit, the one before was higher",
    "17 not yet by the new limit, the one before is met",
    "17 by the set's limit, another set's is higher",
    "17 not yet, another set's limit is met",
    "17 not yet, the profile's limit of the set is met",
];
const BY_CHANGES: [&str; 7] = [
    "19 by the record's own limit, the one in force is higher",
    "19 not yet, the one in force is met",
    "19 by the new limit, the one before was higher",
    "19 not yet by the new limit, the one before is met",
    "19 by the set's limit, another set's is higher",
    "19 not yet, another set's limit is met",
    "19 not yet, the profile's limit of the set is met",
];

fn all_names() -> impl Iterator<Item = &'static str> {
    NAMES.iter().chain(&BY_VOLUME).chain(&BY_TIME).chain(&BY_CHANGES).copied()
}

/// The names of one limit, and which of the three it is.
type Limit = (&'static [&'static str; 7], fn(Limits) -> u64);

const VOLUME: Limit = (&BY_VOLUME, volume);
const TIME: Limit = (&BY_TIME, time);
const CHANGES: Limit = (&BY_CHANGES, changes);

fn volume(limits: Limits) -> u64 {
    limits.volume
}

fn time(limits: Limits) -> u64 {
    limits.time.into()
}

fn changes(limits: Limits) -> u64 {
    limits.changes.into()
}

pub struct Sets {
    answers: BTreeMap<u8, u64>,
    pairs: BTreeMap<(u8, u8, u8), u64>,
    aims: BTreeMap<&'static str, u64>,
    /// Of each activation, the limits of the record that closed last.
    last: BTreeMap<Name, Limits>,
    /// The set that the last event replaced.
    replaced: Option<u8>,
}

impl Default for Sets {
    fn default() -> Sets {
        Sets {
            answers: ANSWERS.iter().map(|n| (*n, 0)).collect(),
            pairs: PAIRS.iter().map(|n| (*n, 0)).collect(),
            aims: all_names().map(|n| (n, 0)).collect(),
            last: BTreeMap::new(),
            replaced: None,
        }
    }
}

impl Sets {
    pub fn new_run(&mut self) {
        self.last.clear();
        self.replaced = None;
    }

    pub fn pair(&mut self, kind: u8, answer: u8, row: u8) {
        if let Some(count) = self.pairs.get_mut(&(kind, answer, row)) {
            *count += 1;
        }
    }

    fn met(&mut self, name: &'static str, when: bool) {
        if when {
            *self.aims.get_mut(name).unwrap_or_else(|| panic!("no aim: {name}")) += 1;
        }
    }

    pub fn missed(&self) -> Vec<String> {
        let mut missed = Vec::new();
        let none = |count: &u64| *count == 0;
        let strange = self.answers.keys().filter(|a| !ANSWERS.contains(a));
        missed.extend(strange.map(|a| format!("a run without answer {a} of a replacement")));
        let answers = self.answers.iter().filter(|a| none(a.1));
        missed.extend(answers.map(|a| format!("answer {} of a replacement", a.0)));
        let pairs = self.pairs.iter().filter(|p| none(p.1)).map(|p| p.0);
        missed.extend(
            pairs.map(|p| format!("kind {}: answer {} where row {} applies", p.0, p.1, p.2)),
        );
        let aims = self.aims.iter().filter(|a| none(a.1));
        missed.extend(aims.map(|a| format!("sets: {}", a.0)));
        missed
    }

    pub fn table(&self) -> String {
        let mut text = String::from("answers of replacements\n");
        for (answer, count) in &self.answers {
            text += &format!("  {answer:>2} {count:>9}\n");
        }
        text += "activations and replacements where a later row applies too\n";
        for ((kind, answer, row), count) in &self.pairs {
            text += &format!("  kind {kind:>2}: {answer:>2}, {row:>2} {count:>9}\n");
        }
        text += "aims of sets\n";
        for name in all_names() {
            text += &format!("  {:>9}  {name}\n", self.aims[name]);
        }
        text += "          -  edition 65,535 in force: after 65,534 replacements, in tests/nodes\n";
        text
    }

    /// An event, with the node before it and what the model makes of it.
    pub fn count(&mut self, node: &Node, event: &[u8], room: usize, done: &Step) {
        let answer = done.answer;
        if event.len() < event::HEAD || matches!(answer, 1 | 3) {
            return;
        }
        match event::kind(event) {
            event::REPLACE => self.count_replacement(node, event, room, answer),
            event::ACTIVATE => self.count_activation(node, event, done),
            _ if answer == 0 => self.count_closings(node, event, done),
            _ => {}
        }
        if answer == 0 {
            let replaces = event::kind(event) == event::REPLACE;
            self.replaced = replaces.then(|| event::set(event));
        }
    }

    // ---- replacements ----

    fn count_replacement(&mut self, node: &Node, event: &[u8], room: usize, answer: u8) {
        *self.answers.entry(answer).or_default() += 1;
        self.met("replacement of 22 octets", answer == 4 && event.len() == 22);
        self.met("replacement of 23 octets", answer == 0 && event.len() == 23);
        self.met("replacement of 24 octets", answer == 4 && event.len() == 24);
        if matches!(answer, 2 | 4) {
            return;
        }
        let What::Replace(set, next) = event::what(event) else { return };
        self.count_limits(next.limits, answer);
        if answer == 18 {
            let after = usize::from(set) == node.sets.len() + 1;
            self.met("set 0 replaced", set == 0);
            self.met("set after the last replaced", after);
            self.met("set 9 replaced where there are eight", set == 9 && after);
            self.met("set 255 replaced", set == 255);
        }
        if answer == 19 {
            self.count_editions(node.set(set).unwrap().edition, next.edition);
        }
        if answer == 0 {
            self.count_taken(node, set, next);
            let time = event::time(event);
            self.count_records(node, set, next.limits, time);
            self.met("replacement at the time of the clock", time == node.clock);
            self.met("replacement later than the clock", time > node.clock);
            self.met("replacement with room 0", room == 0);
        }
    }

    /// The ends of each range: taken, or the only fault.
    fn count_limits(&mut self, limits: Limits, answer: u8) {
        let plain = Limits { volume: 1, time: 1, changes: 1 };
        let refused = |alone: Limits| {
            let others = Limits {
                volume: if alone.volume == 1 { limits.volume } else { 1 },
                time: if alone.time == 1 { limits.time } else { 1 },
                changes: if alone.changes == 1 { limits.changes } else { 1 },
            };
            answer == 5 && others.in_range()
        };
        let Limits { volume, time, changes } = limits;
        let alone = refused(Limits { volume: 0, ..plain });
        self.met("volume limit 0", alone && volume == 0);
        self.met("volume limit 10^12 + 1", alone && volume == MOST_VOLUME + 1);
        let alone = refused(Limits { time: 0, ..plain });
        self.met("time limit 0", alone && time == 0);
        self.met("time limit 604,801", alone && time == MOST_TIME + 1);
        let alone = refused(Limits { changes: 0, ..plain });
        self.met("change limit 0", alone && changes == 0);
        self.met("change limit 16", alone && changes == MOST_CHANGES + 1);
        let taken = answer == 0;
        self.met("volume limit 1", taken && volume == 1);
        self.met("volume limit 10^12", taken && volume == MOST_VOLUME);
        self.met("time limit 1", taken && time == 1);
        self.met("time limit 604,800", taken && time == MOST_TIME);
        self.met("change limit 1", taken && changes == 1);
        self.met("change limit 15", taken && changes == MOST_CHANGES);
    }

    fn count_editions(&mut self, now: u16, asked: u16) {
        let next = now + 1;
        self.met("edition 0", asked == 0);
        self.met("edition one lower", asked > 0 && asked == now - 1);
        self.met("edition equal", asked == now);
        self.met("edition two higher", asked == next + 1);
        let low = asked as u8 == next as u8;
        self.met("edition that is the next in its low octet alone", low);
        let turned = asked == next.swap_bytes();
        self.met("edition that is the next with its octets turned", turned);
        self.met("edition 65,535", asked == 65_535);
    }

    fn count_taken(&mut self, node: &Node, set: u8, next: Set) {
        self.met("edition 2 taken", next.edition == 2);
        self.met("edition 3 taken", next.edition == 3);
        self.met("edition 256 taken", next.edition == 256);
        self.met("edition 257 or above taken", next.edition > 256);
        let only = node.sets.len() == 1;
        self.met("set 1 replaced, the only one", set == 1 && only);
        self.met("set 1 replaced, one of several", set == 1 && !only);
        self.met("set 8 replaced", set == 8);
        let same = node.limits_of(set) == next.limits;
        self.met("replacement by the same limits", same);
        self.met("replacement with subscribers attached", node.attached() > 0);
        self.met("replacement with no context", node.active() == 0);
    }

    /// The open records at a replacement.
    fn count_records(&mut self, node: &Node, set: u8, next: Limits, now: u32) {
        let of_set = |c: &&Context| c.start.set == set;
        let open: Vec<&Context> = node.slots.iter().flatten().filter(of_set).collect();
        let others = open.is_empty() && node.active() > 0;
        self.met("replacement with contexts of other sets alone", others);
        self.met("replacement with several contexts of the set", open.len() > 1);
        for context in open {
            let older = context.limits != node.limits_of(set);
            self.met("replacement where an open record is older than the edition before", older);
            let volume = context.record_volume();
            let less = next.volume < volume;
            self.met("replacement of a volume limit by less than is counted", less);
            let equal = next.volume == volume;
            self.met("replacement of a volume limit by what is counted", equal);
            let less = next.time < now - context.opened;
            self.met("replacement of a time limit by less than the record is open", less);
            let less = u32::from(next.changes) < context.changes;
            self.met("replacement of a change limit by less than is counted", less);
        }
    }

    // ---- activations ----

    fn count_activation(&mut self, node: &Node, event: &[u8], done: &Step) {
        if !matches!(done.answer, 0 | 18) {
            return;
        }
        let (set, sets) = (event::set(event), node.sets.len());
        if done.answer == 18 {
            let after = usize::from(set) == sets + 1;
            self.met("set 0 activated", set == 0);
            self.met("set after the last activated", after);
            self.met("set 9 activated where there are eight", set == 9 && after);
            self.met("set 255 activated", set == 255);
            return;
        }
        self.last.remove(&event::name(event));
        self.met("set 1 activated, the only one", set == 1 && sets == 1);
        self.met("set 1 activated, one of several", set == 1 && sets > 1);
        self.met("set 8 activated", set == 8);
        let last = usize::from(set) == sets && (2..SETS).contains(&sets);
        self.met("last of two to seven sets activated", last);
        let edition = node.set(set).unwrap().edition;
        self.met("set of a later edition activated", edition > 1);
        let just = self.replaced == Some(set);
        self.met("replacement as the last event before an activation of the set", just);
        let contexts = || done.node.slots.iter().flatten();
        let of: BTreeSet<u8> = contexts().map(|c| c.start.set).collect();
        self.met("contexts of eight sets at once", of.len() == SETS);
        self.met("16 contexts of several sets", done.node.active() == 16 && of.len() > 1);
        let now = node.limits_of(set);
        let differ = contexts().any(|c| c.start.set == set && c.limits != now);
        self.met("contexts of one set with different limits", differ);
    }

    // ---- closings ----

    /// What an event counts in a context, against each limit that it could be
    /// measured by.
    fn weigh(&mut self, (names, of): Limit, node: &Node, context: &Context, value: u64) {
        let set = context.start.set;
        let met = |limits: Limits| value >= of(limits);
        let (own, now) = (met(context.limits), met(node.limits_of(set)));
        let last = self.last.get(&context.name).map(|last| met(*last));
        let mut others = node.sets.iter().enumerate().filter(|(at, _)| at + 1 != usize::from(set));
        let higher = others.clone().any(|(_, other)| !met(other.limits));
        let lower = others.any(|(_, other)| met(other.limits));
        let first = met(node.profile.limits[usize::from(set) - 1]);
        self.met(names[0], own && !now);
        self.met(names[1], !own && now);
        self.met(names[2], own && last == Some(false));
        self.met(names[3], !own && last == Some(true));
        self.met(names[4], own && higher);
        self.met(names[5], !own && lower);
        self.met(names[6], !own && first);
    }

    fn count_closings(&mut self, node: &Node, event: &[u8], done: &Step) {
        let of = |name| node.slots[node.find(name).unwrap()].as_ref().unwrap();
        match event::what(event) {
            What::Traffic(name, up, down) => {
                let context = of(name);
                let sum = context.record_volume() + u64::from(up) + u64::from(down);
                self.weigh(VOLUME, node, context, sum);
            }
            What::Qos(name, qos) if of(name).qos != qos => {
                let context = of(name);
                self.weigh(CHANGES, node, context, u64::from(context.changes) + 1);
            }
            What::Tariff => {
                for context in node.slots.iter().flatten() {
                    self.weigh(CHANGES, node, context, u64::from(context.changes) + 1);
                }
            }
            What::Tick => {
                for context in node.slots.iter().flatten() {
                    let open = event::time(event) - context.opened;
                    self.weigh(TIME, node, context, open.into());
                }
            }
            What::Management(name) => {
                let other = of(name).limits != node.limits_of(of(name).start.set);
                self.met("20 and the next record has other limits", other);
            }
            What::Release(name, _) => {
                let older = of(name).limits != node.limits_of(of(name).start.set);
                self.met("release of a record that is older than the edition in force", older);
            }
            _ => {}
        }
        for record in done.records.iter().filter_map(Cdr::s) {
            match is_release(record.cause) {
                true => self.last.remove(&record.name),
                false => self.last.insert(record.name, of(record.name).limits),
            };
        }
    }

    // ---- batches ----

    pub fn count_batch(&mut self, node: &Node, batch: &Batch, done: &Batched) {
        if done.applied > 0 {
            self.replaced = None;
        }
        let Some(slot) = node.find(batch.name).filter(|_| done.applied > 0) else { return };
        let context = node.slots[slot].as_ref().unwrap();
        let (own, now) = (context.limits, node.limits_of(context.start.set));
        let records: Vec<u64> = done
            .records
            .iter()
            .filter_map(Cdr::s)
            .map(|record| record.containers.iter().map(|c| c.uplink + c.downlink).sum())
            .collect();
        let after = done.node.slots[slot].as_ref().unwrap().record_volume();
        let open = records.is_empty() && after >= now.volume;
        self.met("batch with no closing by the record's own limit, the one in force is met", open);
        let other = records.len() == 1 && own.volume != now.volume;
        self.met("batch with one closing, the next record has other limits", other);
        let second = records.get(1).copied();
        // by a lower limit: the old one was not met
        let lower = second.is_some_and(|sum| sum < own.volume);
        self.met("batch with two closings, the second by a lower limit", lower);
        let higher = second.is_some() && records[0] < now.volume;
        self.met("batch with two closings, the second by a higher limit", higher);
        let refused = done.answer == 11 && !records.is_empty() && own.volume != now.volume;
        self.met("batch refused for room after a closing that brought other limits", refused);
        match records.len() {
            0 => {}
            1 => drop(self.last.insert(batch.name, own)),
            _ => drop(self.last.insert(batch.name, now)),
        }
    }
}
