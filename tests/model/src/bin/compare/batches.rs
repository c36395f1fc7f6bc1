//! What the batches among the calls have to meet.

use charging_model::batch::{odd_length, Batch, Batched};
use charging_model::cdr::Cdr;
use charging_model::clock::LAST_SECOND;
use charging_model::node::Node;
use charging_model::record::Record;
use charging_model::step::{self, accept, output};
use std::collections::BTreeMap;

/// How many batches there have to be.
pub const LEAST: u64 = 20_000;
/// The answers that a batch of a run can get.
const ANSWERS: [u8; 5] = [0, 6, 8, 11, 14];
/// From so many pairs on a batch is a long one; and the most that there are.
const LONG: usize = 100;
const MOST: usize = 500;

const NAMES: &[&str] = &[
    "empty list",
    "empty list with a name that is not active",
    "empty list with a time before the clock",
    "empty list with a time above 3,155,759,999",
    "empty list with a time later than the clock",
    "list of one number",
    "list of odd length with an active name, in time",
    "list of odd length with a name that is not active",
    "list of odd length with a time out of range",
    "list of odd length whose first pair has no room",
    "list of 999 numbers",
    "list of one pair",
    "list of a few pairs",
    "list of hundreds of pairs",
    "list of 500 pairs, all applied",
    "refused at the first of several pairs",
    "refused in the middle",
    "refused at the last of several pairs",
    "refused at the only pair",
    "6 where the name is not active",
    "8 of several pairs",
    "time equal to the clock",
    "time later than the clock",
    "time one second back",
    "time 3,155,759,999",
    "time 3,155,760,000",
    "room exact for several records",
    "room one octet short for the last of several records",
    "room for one record, refused at the second",
    "records kept before a refusal",
    "pairs applied without a record before a refusal",
    "room for the next record, had the ones before not been written",
    "room 0 and pairs that close nothing",
    "closing at the first of several pairs",
    "closing in the middle alone",
    "closing at the last of several pairs",
    "several closings",
    "a closing at every one of several pairs",
    "more than ten closings",
    "records in one batch that carry one number after another",
    "volume limit met exactly by a pair that is not the first",
    "a pair of nothing",
    "uplink and downlink differ in a record",
    "containers of earlier events in a record",
    "time limit passed, and no record closed for it",
    "an event between two batches",
    "two batches with no event between",
    "the rest of a batch refused for room comes again",
];

pub struct Batches {
    pub all: u64,
    answers: BTreeMap<u8, u64>,
    aims: BTreeMap<&'static str, u64>,
    /// Of the last call, where it was a batch: what 11 left of it.
    last: Option<Batch>,
}

impl Default for Batches {
    fn default() -> Batches {
        Batches {
            all: 0,
            answers: ANSWERS.iter().map(|n| (*n, 0)).collect(),
            aims: NAMES.iter().map(|n| (*n, 0)).collect(),
            last: None,
        }
    }
}

/// Which of the first so many pairs close a record, where there is room.
fn closings(node: &Node, batch: &Batch, pairs: usize) -> Vec<usize> {
    let mut node = node.clone();
    let mut closings = Vec::new();
    for (at, event) in batch.events()[..pairs].iter().enumerate() {
        let (after, records) = accept(&node, event);
        node = after;
        if !records.is_empty() {
            closings.push(at);
        }
    }
    closings
}

impl Batches {
    /// An event comes next, or a new run.
    pub fn no_batch(&mut self) {
        self.last = None;
    }

    fn met(&mut self, name: &'static str, when: bool) {
        if when {
            *self.aims.get_mut(name).unwrap_or_else(|| panic!("no aim: {name}")) += 1;
        }
    }

    pub fn missed(&self) -> Vec<String> {
        let mut missed = Vec::new();
        if self.all < LEAST {
            missed.push(format!("{LEAST} batches; there are {}", self.all));
        }
        let none = |count: &u64| *count == 0;
        let strange = self.answers.keys().filter(|a| !ANSWERS.contains(a));
        missed.extend(strange.map(|a| format!("a run without answer {a} of a batch")));
        let answers = self.answers.iter().filter(|a| none(a.1));
        missed.extend(answers.map(|a| format!("answer {} of a batch", a.0)));
        let aims = self.aims.iter().filter(|a| none(a.1));
        missed.extend(aims.map(|a| format!("batch: {}", a.0)));
        missed
    }

    pub fn table(&self) -> String {
        let mut text = format!("batches\n  {:>9}  in all\nanswers of batches\n", self.all);
        for (answer, count) in &self.answers {
            text += &format!("  {answer:>2} {count:>9}\n");
        }
        text += "   7         -  out of a run's reach, as for events; so is 13\n";
        text += "aims of batches\n";
        for name in NAMES {
            text += &format!("  {:>9}  {name}\n", self.aims[name]);
        }
        text
    }

    /// One batch, with the node before it and what the model makes of it.
    pub fn count(&mut self, node: &Node, batch: &Batch, room: usize, done: &Batched) {
        self.all += 1;
        *self.answers.entry(done.answer).or_default() += 1;
        self.count_list(node, batch, room, done);
        self.count_time(node, batch, done);
        if done.answer != 14 {
            self.count_end(node, batch, done);
            self.count_room(node, batch, room, done);
            self.count_closings(node, batch, done);
        }
        self.count_order(batch, done);
    }

    fn count_list(&mut self, node: &Node, batch: &Batch, room: usize, done: &Batched) {
        let active = node.find(batch.name).is_some();
        let (back, above) = (batch.time < node.clock, batch.time > LAST_SECOND);
        let numbers = batch.volumes.len();
        let empty = numbers == 0;
        self.met("empty list", empty);
        self.met("empty list with a name that is not active", empty && !active);
        self.met("empty list with a time before the clock", empty && back);
        self.met("empty list with a time above 3,155,759,999", empty && above);
        let later = batch.time > node.clock && !above;
        self.met("empty list with a time later than the clock", empty && later);
        let odd = odd_length(node, batch);
        let in_time = !back && !above;
        self.met("list of one number", numbers == 1);
        self.met("list of odd length with an active name, in time", odd && active && in_time);
        self.met("list of odd length with a name that is not active", odd && !active);
        self.met("list of odd length with a time out of range", odd && !in_time);
        if odd && active && in_time && numbers > 1 {
            let first = &batch.events()[0];
            let too_long = step::output_too_long(node, first, room);
            self.met("list of odd length whose first pair has no room", too_long);
        }
        self.met("list of 999 numbers", numbers == 999);
        self.met("list of one pair", numbers == 2);
        self.met("list of a few pairs", !odd && (4..=12).contains(&numbers));
        self.met("list of hundreds of pairs", !odd && numbers / 2 >= LONG);
        let all = numbers == 2 * MOST && done.answer == 0;
        self.met("list of 500 pairs, all applied", all);
    }

    fn count_time(&mut self, node: &Node, batch: &Batch, done: &Batched) {
        let applied = done.applied > 0;
        self.met("time equal to the clock", applied && batch.time == node.clock);
        self.met("time later than the clock", applied && batch.time > node.clock);
        self.met("time 3,155,759,999", applied && batch.time == LAST_SECOND);
        let late = done.answer == 6;
        self.met("time one second back", late && node.clock.checked_sub(1) == Some(batch.time));
        self.met("time 3,155,760,000", late && batch.time == LAST_SECOND + 1);
        let active = node.find(batch.name).is_some();
        self.met("6 where the name is not active", late && !active);
    }

    /// Where a refused batch stopped.
    fn count_end(&mut self, node: &Node, batch: &Batch, done: &Batched) {
        let pairs = batch.volumes.len() / 2;
        let (refused, at) = (done.answer != 0, done.applied);
        self.met("refused at the first of several pairs", refused && pairs > 1 && at == 0);
        let middle = at > 0 && at + 1 < pairs;
        self.met("refused in the middle", refused && middle);
        let last = pairs > 1 && at + 1 == pairs;
        self.met("refused at the last of several pairs", refused && last);
        self.met("refused at the only pair", refused && pairs == 1);
        self.met("8 of several pairs", done.answer == 8 && pairs > 1);
        let some = !done.records.is_empty();
        self.met("records kept before a refusal", refused && some);
        let without = refused && at > 0 && !some;
        self.met("pairs applied without a record before a refusal", without);
        self.met("a pair of nothing", batch.volumes.chunks(2).take(at).any(|p| p == [0, 0]));
        let Some(slot) = node.find(batch.name) else { return };
        let context = node.slots[slot].as_ref().unwrap();
        let open = batch.time.saturating_sub(context.opened) >= context.limits.time;
        self.met("time limit passed, and no record closed for it", open && at > 0 && !some);
    }

    fn count_room(&mut self, node: &Node, batch: &Batch, room: usize, done: &Batched) {
        let records = done.records.len();
        let written = done.output.len();
        let accepted = done.answer == 0;
        self.met("room exact for several records", accepted && records > 1 && room == written);
        let idle = accepted && done.applied > 0 && records == 0;
        self.met("room 0 and pairs that close nothing", idle && room == 0);
        if done.answer != 11 {
            return;
        }
        let next = accept(&done.node, &batch.events()[done.applied]).1;
        let needed = output(&next).len();
        let last = closings(node, batch, batch.volumes.len() / 2).len() == records + 1;
        let short = records > 0 && room + 1 == written + needed;
        self.met("room one octet short for the last of several records", last && short);
        self.met("room for one record, refused at the second", records == 1);
        let alone = written > 0 && needed <= room;
        self.met("room for the next record, had the ones before not been written", alone);
    }

    fn count_closings(&mut self, node: &Node, batch: &Batch, done: &Batched) {
        if done.records.is_empty() {
            return;
        }
        let pairs = batch.volumes.len() / 2;
        let at = closings(node, batch, done.applied);
        assert_eq!(at.len(), done.records.len());
        let (first, last) = (at[0] == 0, at.contains(&(pairs - 1)));
        self.met("closing at the first of several pairs", pairs > 1 && first);
        self.met("closing in the middle alone", !first && !last && done.answer == 0);
        self.met("closing at the last of several pairs", pairs > 1 && last);
        self.met("several closings", at.len() > 1);
        self.met("a closing at every one of several pairs", pairs > 1 && at.len() == pairs);
        self.met("more than ten closings", at.len() > 10);
        let records: Vec<&Record> = done.records.iter().filter_map(Cdr::s).collect();
        let in_turn = records.windows(2).all(|two| two[0].number < two[1].number);
        let numbers = at.len() > 1 && in_turn;
        self.met("records in one batch that carry one number after another", numbers);
        let volume = |r: &Record| r.containers.iter().map(|c| c.uplink + c.downlink).sum::<u64>();
        let context = node.slots[node.find(batch.name).unwrap()].as_ref().unwrap();
        let next = node.limits_of(context.start.set);
        let limits = [context.limits].into_iter().chain(std::iter::repeat(next));
        let exact = records.iter().zip(limits).any(|(r, limits)| volume(r) == limits.volume);
        self.met("volume limit met exactly by a pair that is not the first", exact && !first);
        let differ = |record: &&Record| {
            let last = record.containers.last().unwrap();
            last.uplink != last.downlink
        };
        self.met("uplink and downlink differ in a record", records.iter().any(differ));
        let earlier = records[0].containers.len() > 1;
        self.met("containers of earlier events in a record", earlier);
    }

    fn count_order(&mut self, batch: &Batch, done: &Batched) {
        let between = self.last.is_none() && self.all > 1;
        self.met("an event between two batches", between);
        self.met("two batches with no event between", self.last.is_some());
        let again =
            self.last.as_ref().is_some_and(|last| !last.volumes.is_empty() && last == batch);
        self.met("the rest of a batch refused for room comes again", again);
        let mut rest = batch.clone();
        match done.answer {
            11 => drop(rest.volumes.drain(..2 * done.applied)),
            _ => rest.volumes.clear(),
        }
        self.last = Some(rest);
    }
}
