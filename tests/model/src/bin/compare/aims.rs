//! What a set of calls has to meet to be worth comparing, counted call by
//! call: a table of aims, none of which may stay at zero.

use crate::batches::Batches;
use crate::sets::Sets;
use crate::subscribers::Subscribers;
use charging_model::batch::{Batch, Batched};
use charging_model::cdr::Cdr;
use charging_model::clock::{self, LAST_SECOND};
use charging_model::event::{self, Name, What};
use charging_model::node::{Node, SLOTS};
use charging_model::record::Record;
use charging_model::step::{self, Step};
use std::collections::{BTreeMap, BTreeSet};

/// The refusals that a call of a run can get.
pub const REFUSALS: [u8; 15] = [1, 2, 3, 4, 5, 6, 8, 9, 10, 11, 15, 16, 17, 18, 19];
pub const CAUSES: [u8; 7] = [0, 4, 16, 17, 18, 19, 20];

/// Of the activations that are taken one in so many, at least, has no capitals
/// in its APN, and one in so many has both cases.
const SHARE: u64 = 3;

/// Answers with a later row of the table that would have applied as well.
const PAIRS: [(u8, u8); 22] = [
    (1, 2),
    (1, 3),
    (2, 3),
    (2, 4),
    (2, 5),
    (2, 6),
    (3, 6),
    (4, 6),
    (5, 6),
    (5, 8),
    (5, 9),
    (5, 10),
    (6, 8),
    (6, 9),
    (6, 10),
    (6, 11),
    (2, 11),
    (5, 11),
    (9, 10),
    (2, 8),
    (2, 9),
    (2, 10),
];

const NAMES: &[&str] = &[
    "volume limit met exactly",
    "volume limit missed by one octet",
    "volume limit passed",
    "volume limit 1",
    "volume limit 10^12 met",
    "a volume of 2^32 or more in a container",
    "time limit met exactly at a tick",
    "time limit missed by one second",
    "time limit passed without a tick",
    "time limit 1",
    "time limit 604,800 met",
    "change limit met by QoS",
    "change limit met by a tariff",
    "change limit 1 met",
    "change limit 15 met",
    "record of 15 containers",
    "record of several containers with condition 0 alone",
    "record of several containers with condition 1 alone",
    "record of 15 containers with conditions 0 and 1",
    "QoS left out that is not the first container's",
    "QoS to the same profile",
    "tariff that closes one context and not another",
    "tick that closes one context and not another",
    "tariff with 0 contexts",
    "tariff with 1 context",
    "tariff with 16 contexts",
    "tick with 0 contexts",
    "tick with 1 context",
    "tick with 16 contexts",
    "16 records in one output",
    "16 records of 15 containers in one output",
    "room exact",
    "room exact for 16 records",
    "room one octet short",
    "room one octet short for 16 records",
    "room for the first record but not for all",
    "room for the records but not the marks",
    "room 0 and no output",
    "room 0 for a record",
    "time equal to the clock",
    "time one second back",
    "time 3,155,759,999",
    "time 3,155,760,000",
    "time 4,294,967,295",
    "first event of a run at a time above 0",
    "record on 29 February 2000",
    "record on another 29 February",
    "record on 1 March 2000",
    "record on the last of December",
    "record in the last second of a day",
    "duration of 2^31 or more",
    "duration 0",
    "node ID of 0 characters",
    "node ID of 1 character",
    "node ID of 20 characters",
    "node ID that ends with a space",
    "offset -720",
    "offset -1",
    "offset 0",
    "offset 840",
    "offset of an uneven hour",
    "charging ID 0",
    "charging ID 127",
    "charging ID 128",
    "charging ID 32768",
    "charging ID with its top bit set",
    "number 128 or above",
    "number 32,768 or above",
    "sole record by 0",
    "sole record by 4",
    "sole record by 18",
    "numbered release by 0",
    "numbered release by 4",
    "numbered release by 18",
    "network initiation",
    "SGSN change in a sole record",
    "SGSN change in record number 1",
    "later record of an arrival by SGSN change",
    "released name activated again",
    "slot used again below a taken one",
    "same charging ID with another GGSN active",
    "same GGSN with another charging ID active",
    "active name while the table is full",
    "IMSI of 6 digits",
    "IMSI of 7 digits",
    "IMSI of 14 digits",
    "IMSI of 15 digits",
    "IMSI of 5 digits",
    "IMSI of 16 digits",
    "n of 0 in 37 octets",
    "n of 0 in 38 octets",
    "n of 1",
    "n of 63",
    "n of 64 in 101 octets",
    "APN without capitals",
    "APN of both cases",
    "APN of capitals alone",
    "APN of eight octets or more, all capitals",
    "APN of eight octets or more with a capital as its first alone",
    "APN of eight octets or more with a capital as its last alone",
    "APN of 63 octets with a capital as its last",
    "APN of eight octets or more that a context has in another spelling",
    "APN with A",
    "APN with Z",
    "APN refused for '@', the octet before A",
    "APN refused for '[', the octet after Z",
    "APN refused for '`', the octet before a",
    "APN refused for '{', the octet after z",
    "sole record of an APN with capitals",
    "record number 1 of an APN with capitals",
    "later record of an APN with capitals",
    "activate of 36 octets",
    "mean 18",
    "mean 19",
    "kind 0",
    "kind 13",
    "kind 255",
    "the event refused for room comes again and fits",
];

pub struct Aims {
    pub answers: BTreeMap<u8, u64>,
    pub causes: BTreeMap<u8, u64>,
    pub aims: BTreeMap<&'static str, u64>,
    pub pairs: BTreeMap<(u8, u8), u64>,
    pub lengths: BTreeSet<usize>,
    /// Activations that were taken.
    pub activations: u64,
    /// Octets of APNs, taken or the only fault of an activation.
    pub apn_octets: BTreeSet<u8>,
    batches: Batches,
    subscribers: Subscribers,
    sets: Sets,
    released: BTreeSet<Name>,
    /// Names whose last activation had capitals in its APN.
    capitals: BTreeSet<Name>,
    refused_for_room: Vec<u8>,
}

impl Default for Aims {
    fn default() -> Aims {
        Aims {
            answers: REFUSALS.iter().map(|n| (*n, 0)).chain([(0, 0)]).collect(),
            causes: CAUSES.iter().map(|n| (*n, 0)).collect(),
            aims: NAMES.iter().map(|n| (*n, 0)).collect(),
            pairs: PAIRS.iter().map(|n| (*n, 0)).collect(),
            lengths: BTreeSet::new(),
            activations: 0,
            apn_octets: BTreeSet::new(),
            batches: Batches::default(),
            subscribers: Subscribers::default(),
            sets: Sets::default(),
            released: BTreeSet::new(),
            capitals: BTreeSet::new(),
            refused_for_room: Vec::new(),
        }
    }
}

impl Aims {
    /// A new run begins with a fresh node.
    pub fn new_run(&mut self) {
        self.released.clear();
        self.capitals.clear();
        self.refused_for_room.clear();
        self.batches.no_batch();
        self.subscribers.new_run();
        self.sets.new_run();
    }

    fn met(&mut self, name: &'static str, when: bool) {
        if when {
            *self.aims.get_mut(name).unwrap_or_else(|| panic!("no aim: {name}")) += 1;
        }
    }

    pub fn missed(&self) -> Vec<String> {
        let mut missed = Vec::new();
        let none = |count: &u64| *count == 0;
        let strange = self.answers.keys().filter(|a| **a != 0 && !REFUSALS.contains(a));
        missed.extend(strange.map(|a| format!("a run without answer {a}")));
        missed.extend(self.answers.iter().filter(|a| none(a.1)).map(|a| format!("answer {}", a.0)));
        missed.extend(self.causes.iter().filter(|c| none(c.1)).map(|c| format!("cause {}", c.0)));
        missed.extend(self.aims.iter().filter(|a| none(a.1)).map(|a| a.0.to_string()));
        let pairs = self.pairs.iter().filter(|p| none(p.1));
        missed.extend(pairs.map(|p| format!("answer {} where row {} applies too", p.0 .0, p.0 .1)));
        missed.extend(
            (0..=300).filter(|l| !self.lengths.contains(l)).map(|l| format!("event of length {l}")),
        );
        for name in ["APN without capitals", "APN of both cases"] {
            let few = self.aims[name] * SHARE < self.activations;
            missed.extend(few.then(|| format!("in one activation of {SHARE}: {name}")));
        }
        let octets = (0..=255).filter(|o| !self.apn_octets.contains(o));
        missed.extend(octets.map(|o: u8| format!("octet {o:02X} in an APN")));
        missed.extend(self.batches.missed());
        missed.extend(self.subscribers.missed());
        missed.extend(self.sets.missed());
        missed
    }

    pub fn table(&self) -> String {
        let mut text = String::from("answers\n");
        for (answer, count) in &self.answers {
            text += &format!("  {answer:>2} {count:>9}\n");
        }
        text += "   7         -  out of a run's reach: 10^15 accepted events come first\n";
        text += "  13         -  out of a run's reach: a fresh node stays sound\n";
        text += "records by closing cause\n";
        for (cause, count) in &self.causes {
            text += &format!("  {cause:>2} {count:>9}\n");
        }
        text += "answers where a later row applies too\n";
        for ((answer, row), count) in &self.pairs {
            text += &format!("  {answer:>2}, {row:>2} {count:>9}\n");
        }
        text += "aims\n";
        for name in NAMES {
            text += &format!("  {:>9}  {name}\n", self.aims[name]);
        }
        text += &format!("  {:>9}  different lengths of an event\n", self.lengths.len());
        text += &format!("  {:>9}  activations taken\n", self.activations);
        let octets = self.apn_octets.len();
        text += &format!("  {octets:>9}  different octets of an APN, taken or the only fault\n");
        text + &self.batches.table() + &self.subscribers.table() + &self.sets.table()
    }

    /// A batch, with the node before it and what the model makes of it.
    pub fn count_batch(&mut self, node: &Node, batch: &Batch, room: usize, done: &Batched) {
        self.batches.count(node, batch, room, done);
        self.sets.count_batch(node, batch, done);
        self.subscribers.calls += 1;
        for record in done.records.iter().filter_map(Cdr::s) {
            self.count_record(node, record);
        }
    }

    /// An event, likewise.
    pub fn count(&mut self, node: &Node, event: &[u8], room: usize, done: &Step) {
        self.batches.no_batch();
        *self.answers.entry(done.answer).or_default() += 1;
        self.lengths.insert(event.len());
        self.subscribers.count(node, event, room, done);
        self.sets.count(node, event, room, done);
        self.count_pairs(node, event, room, done.answer);
        self.count_octets(node, event, done.answer);
        for record in done.records.iter().filter_map(Cdr::s) {
            self.count_record(node, record);
        }
        if matches!(done.answer, 0 | 11) {
            self.count_room(node, event, room);
            self.count_event(node, event, done);
        }
        if done.answer == 0 {
            let again = self.refused_for_room == event && !event.is_empty();
            self.met("the event refused for room comes again and fits", again);
        }
        self.refused_for_room = if done.answer == 11 { event.to_vec() } else { Vec::new() };
    }

    fn count_pairs(&mut self, node: &Node, event: &[u8], room: usize, answer: u8) {
        let kind = event.get(2).copied().unwrap_or_default();
        for row in later_rows(node, event, room, answer) {
            match kind {
                event::ATTACH..=event::DETACH => self.subscribers.pair(answer, row),
                event::REPLACE => self.sets.pair(kind, answer, row),
                _ => {
                    self.sets.pair(kind, answer, row);
                    if let Some(count) = self.pairs.get_mut(&(answer, row)) {
                        *count += 1;
                    }
                }
            }
        }
    }

    fn count_octets(&mut self, node: &Node, event: &[u8], answer: u8) {
        if matches!(answer, 1 | 2) {
            return;
        }
        let kind = event::kind(event);
        self.met("kind 0", kind == 0);
        self.met("kind 13", kind == 13);
        self.met("kind 255", kind == 255);
        let n = (kind == event::ACTIVATE).then(|| event.get(36).copied()).flatten();
        self.met("activate of 36 octets", kind == event::ACTIVATE && event.len() == 36);
        self.met("n of 0 in 37 octets", n == Some(0) && event.len() == 37);
        self.met("n of 0 in 38 octets", n == Some(0) && event.len() == 38);
        self.met("n of 1", n == Some(1) && answer == 0);
        self.met("n of 63", n == Some(63) && answer == 0);
        self.met("n of 64 in 101 octets", n == Some(64) && event.len() == 101);
        if matches!(answer, 3 | 4) {
            return;
        }
        if let What::Activate(_, start) = event::what(event) {
            let digits = event::imsi_digits(&start.imsi);
            self.met("IMSI of 6 digits", digits == 6 && answer == 0);
            self.met("IMSI of 7 digits", digits == 7 && answer == 0);
            self.met("IMSI of 14 digits", digits == 14 && answer == 0);
            self.met("IMSI of 15 digits", digits == 15 && answer == 0);
            self.met("IMSI of 5 digits", digits == 5 && answer == 5);
            self.met("IMSI of 16 digits", digits == 16 && answer == 5);
            self.met("mean 18", start.qos[4] == 18 && answer == 0);
            self.met("mean 19", start.qos[4] == 19 && answer == 5);
            self.count_apn(node, event, &start.apn, answer);
        }
        let time = event::time(event);
        if matches!(answer, 0 | 6) {
            self.met("time equal to the clock", time == node.clock && node.accepted > 0);
            self.met("time one second back", node.clock > 0 && time == node.clock - 1);
            self.met("time 3,155,759,999", time == LAST_SECOND);
            self.met("time 3,155,760,000", time == LAST_SECOND + 1);
            self.met("time 4,294,967,295", time == u32::MAX);
            let first = node.accepted == 0 && time > 0 && answer == 0;
            self.met("first event of a run at a time above 0", first);
        }
        self.met("active name while the table is full", answer == 9 && node.active() == SLOTS);
    }

    /// The APN of an activation, as it is spelled.
    fn count_apn(&mut self, node: &Node, event: &[u8], apn: &[u8], answer: u8) {
        for octet in apn.iter().copied().collect::<BTreeSet<u8>>() {
            let mut other = event.to_vec();
            other[37..].iter_mut().filter(|o| **o == octet).for_each(|o| *o = b'0');
            let refused = answer == 5 && event::fields_in_range(&other);
            if refused || answer == 0 {
                self.apn_octets.insert(octet);
            }
            self.met("APN refused for '@', the octet before A", refused && octet == b'@');
            self.met("APN refused for '[', the octet after Z", refused && octet == b'[');
            self.met("APN refused for '`', the octet before a", refused && octet == b'`');
            self.met("APN refused for '{', the octet after z", refused && octet == b'{');
        }
        if answer != 0 {
            return;
        }
        self.activations += 1;
        let capital = u8::is_ascii_uppercase;
        let (capitals, n) = (apn.iter().filter(|c| capital(c)).count(), apn.len());
        let first = capital(&apn[0]);
        let last = capital(&apn[n - 1]);
        self.met("APN without capitals", capitals == 0);
        let both = capitals > 0 && apn.iter().any(u8::is_ascii_lowercase);
        self.met("APN of both cases", both);
        self.met("APN of capitals alone", capitals == n);
        let long = n >= 8;
        self.met("APN of eight octets or more, all capitals", long && capitals == n);
        let alone = long && capitals == 1;
        self.met("APN of eight octets or more with a capital as its first alone", alone && first);
        self.met("APN of eight octets or more with a capital as its last alone", alone && last);
        self.met("APN of 63 octets with a capital as its last", n == 63 && last);
        let stored = event::lowered(apn);
        let again = node.slots.iter().flatten().any(|c| c.start.apn == stored);
        let again = long && capitals > 0 && again;
        self.met("APN of eight octets or more that a context has in another spelling", again);
        self.met("APN with A", apn.contains(&b'A'));
        self.met("APN with Z", apn.contains(&b'Z'));
        let name = event::name(event);
        self.capitals.remove(&name);
        if capitals > 0 {
            self.capitals.insert(name);
        }
    }

    fn count_room(&mut self, node: &Node, event: &[u8], room: usize) {
        let records = step::accept(node, event).1;
        let needed = step::output(&records).len();
        let some = !records.is_empty();
        let all = records.len() == SLOTS;
        self.met("room exact", some && room == needed);
        self.met("room exact for 16 records", all && room == needed);
        self.met("room one octet short", some && room + 1 == needed);
        self.met("room one octet short for 16 records", all && room + 1 == needed);
        self.met("room 0 and no output", !some && room == 0);
        self.met("room 0 for a record", some && room == 0);
        if records.len() > 1 && room < needed {
            let first = step::output(&records[..1]).len();
            self.met("room for the first record but not for all", room >= first);
        }
        let bare = room < needed && room + 2 * records.len() >= needed;
        self.met("room for the records but not the marks", some && bare);
    }

    fn count_event(&mut self, node: &Node, event: &[u8], done: &Step) {
        if done.answer != 0 {
            return;
        }
        let time = event::time(event);
        let closed = done.records.len();
        let slot_of = |name| node.slots[node.find(name).unwrap()].as_ref().unwrap();
        match event::what(event) {
            What::Activate(name, _) => {
                self.met("released name activated again", self.released.contains(&name));
                let free = node.lowest_free().unwrap();
                let below = node.slots[free..].iter().any(Option::is_some);
                self.met("slot used again below a taken one", below);
                let others = || node.slots.iter().flatten().map(|c| c.name);
                let same_id = others().any(|o| o.charging_id == name.charging_id);
                self.met("same charging ID with another GGSN active", same_id);
                let same_ggsn = others().any(|o| o.ggsn == name.ggsn);
                self.met("same GGSN with another charging ID active", same_ggsn);
            }
            What::Traffic(name, up, down) => {
                let context = slot_of(name);
                let sum = context.record_volume() + u64::from(up) + u64::from(down);
                let limit = context.limits.volume;
                self.met("volume limit met exactly", sum == limit);
                self.met("volume limit missed by one octet", sum + 1 == limit);
                self.met("volume limit passed", sum > limit);
                self.met("volume limit 1", limit == 1 && closed == 1);
                self.met("volume limit 10^12 met", limit == 1_000_000_000_000 && closed == 1);
                let late = time - context.opened >= context.limits.time;
                self.met("time limit passed without a tick", late && closed == 0);
            }
            What::Qos(name, qos) => {
                self.met("QoS to the same profile", slot_of(name).qos == qos);
                self.met("change limit met by QoS", closed == 1);
                let limit = slot_of(name).limits.changes;
                self.met("change limit 1 met", limit == 1 && closed == 1);
                self.met("change limit 15 met", limit == 15 && closed == 1);
            }
            What::Tariff => {
                self.met("change limit met by a tariff", closed > 0);
                for context in node.slots.iter().flatten() {
                    let limit = context.limits.changes;
                    let met = context.changes + 1 == u32::from(limit);
                    self.met("change limit 1 met", met && limit == 1);
                    self.met("change limit 15 met", met && limit == 15);
                }
                self.met("tariff with 0 contexts", node.active() == 0);
                self.met("tariff with 1 context", node.active() == 1);
                self.met("tariff with 16 contexts", node.active() == SLOTS);
                let some = closed > 0 && closed < node.active();
                self.met("tariff that closes one context and not another", some);
            }
            What::Tick => {
                self.met("tick with 0 contexts", node.active() == 0);
                self.met("tick with 1 context", node.active() == 1);
                self.met("tick with 16 contexts", node.active() == SLOTS);
                let some = closed > 0 && closed < node.active();
                self.met("tick that closes one context and not another", some);
                for context in node.slots.iter().flatten() {
                    let (open, limit) = (time - context.opened, context.limits.time);
                    self.met("time limit met exactly at a tick", open == limit);
                    self.met("time limit missed by one second", open + 1 == limit);
                    self.met("time limit 1", limit == 1 && open == 1);
                    self.met("time limit 604,800 met", limit == 604_800 && open >= limit);
                }
            }
            What::Release(name, _) => {
                self.released.insert(name);
            }
            _ => {}
        }
        self.met("16 records in one output", closed == SLOTS);
        let fifteen = |r: &Cdr| r.s().is_some_and(|r| r.containers.len() == 15);
        let full = closed == SLOTS && done.records.iter().all(fifteen);
        self.met("16 records of 15 containers in one output", full);
    }

    fn count_record(&mut self, node: &Node, record: &Record) {
        *self.causes.entry(record.cause).or_default() += 1;
        let profile = &node.profile;
        self.met("record of 15 containers", record.containers.len() == 15);
        let (last, earlier) = record.containers.split_last().unwrap();
        let has = |condition: u8| earlier.iter().any(|c| c.condition == condition);
        self.met("record of several containers with condition 0 alone", has(0) && !has(1));
        self.met("record of several containers with condition 1 alone", has(1) && !has(0));
        let both = has(0) && has(1);
        self.met("record of 15 containers with conditions 0 and 1", earlier.len() == 14 && both);
        let left_out = earlier.iter().any(|c| c.condition == 1 && c.qos != earlier[0].qos);
        self.met("QoS left out that is not the first container's", left_out);
        let big = |v: u64| v >= 1 << 32;
        let volume = record.containers.iter().any(|c| big(c.uplink) || big(c.downlink));
        self.met("a volume of 2^32 or more in a container", volume);
        let time = last.time;
        let (year, month, day) = clock::date(time / 86_400);
        self.met("record on 29 February 2000", (year, month, day) == (2000, 2, 29));
        self.met("record on another 29 February", year > 2000 && (month, day) == (2, 29));
        self.met("record on 1 March 2000", (year, month, day) == (2000, 3, 1));
        self.met("record on the last of December", (month, day) == (12, 31));
        self.met("record in the last second of a day", time % 86_400 == 86_399);
        self.met("duration of 2^31 or more", time - record.opened >= 1 << 31);
        self.met("duration 0", time == record.opened);
        self.met("node ID of 0 characters", profile.node_id.is_empty());
        self.met("node ID of 1 character", profile.node_id.len() == 1);
        self.met("node ID of 20 characters", profile.node_id.len() == 20);
        self.met("node ID that ends with a space", profile.node_id.last() == Some(&b' '));
        self.met("offset -720", profile.offset == -720);
        self.met("offset -1", profile.offset == -1);
        self.met("offset 0", profile.offset == 0);
        self.met("offset 840", profile.offset == 840);
        self.met("offset of an uneven hour", profile.offset % 60 != 0);
        let id = record.name.charging_id;
        self.met("charging ID 0", id == 0);
        self.met("charging ID 127", id == 127);
        self.met("charging ID 128", id == 128);
        self.met("charging ID 32768", id == 32768);
        self.met("charging ID with its top bit set", id >= 1 << 31);
        self.met("number 128 or above", record.number.is_some_and(|n| n >= 128));
        self.met("number 32,768 or above", record.number.is_some_and(|n| n >= 32_768));
        let sole = record.number.is_none();
        self.met("sole record by 0", sole && record.cause == 0);
        self.met("sole record by 4", sole && record.cause == 4);
        self.met("sole record by 18", sole && record.cause == 18);
        self.met("numbered release by 0", !sole && record.cause == 0);
        self.met("numbered release by 4", !sole && record.cause == 4);
        self.met("numbered release by 18", !sole && record.cause == 18);
        self.met("network initiation", record.network_initiated);
        self.met("SGSN change in a sole record", sole && record.sgsn_change);
        self.met("SGSN change in record number 1", !sole && record.sgsn_change);
        let capitals = self.capitals.contains(&record.name);
        self.met("sole record of an APN with capitals", capitals && sole);
        self.met("record number 1 of an APN with capitals", capitals && record.number == Some(1));
        let after = record.number.is_some_and(|n| n > 1);
        self.met("later record of an APN with capitals", capitals && after);
        let flagged = node.find(record.name);
        let flags = flagged.map_or(0, |slot| node.slots[slot].as_ref().unwrap().start.flags);
        let later = flags & 2 != 0 && record.number.is_some_and(|n| n > 1);
        self.met("later record of an arrival by SGSN change", later);
    }
}

/// The later rows of the table that would have applied to a refused event as
/// well.
fn later_rows(node: &Node, event: &[u8], room: usize, answer: u8) -> Vec<u8> {
    if answer == 0 || answer == 11 {
        return Vec::new();
    }
    if event.len() < event::HEAD {
        let mark = event.len() >= 2 && event[..2] != event::MARK;
        let kind = event.len() >= 3 && !event::is_kind(event[2]);
        return [(2, mark), (3, kind)].iter().filter(|row| row.1).map(|row| row.0).collect();
    }
    let at = step::TABLE.iter().position(|row| row.0 == answer).unwrap();
    let rows = step::TABLE[at + 1..].iter();
    rows.filter(|row| applies_too(node, event, room, row)).map(|row| row.0).collect()
}

/// Rows that look into fields need the kind and the length, and the last one a
/// name that fits.
fn applies_too(node: &Node, event: &[u8], room: usize, row: &step::Row) -> bool {
    let (number, applies) = *row;
    let known = event::is_kind(event::kind(event));
    let readable = known && event::whole_length(event) == Some(event.len());
    match number {
        2 | 3 | 6 | 7 => applies(node, event, room),
        4 => known && applies(node, event, room),
        11 => readable && no_room(node, event, room),
        _ => readable && applies(node, event, room),
    }
}

/// Would the event, at a time that is right, write a record into so little
/// room, less than any record has? A wrong time can't be carried out; the
/// output is about as long now.
fn no_room(node: &Node, event: &[u8], room: usize) -> bool {
    let named = [18, 19, 8, 9, 10, 16, 15, 17];
    let rows = step::TABLE.iter().filter(|row| named.contains(&row.0));
    if rows.into_iter().any(|row| row.1(node, event, room)) {
        return false;
    }
    let mut other = event.to_vec();
    if step::time_out_of_range(node, event, room) {
        other[3..7].copy_from_slice(&node.clock.to_be_bytes());
    }
    !step::accept(node, &other).1.is_empty() && room < 44
}
