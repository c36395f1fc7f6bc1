//! What the events of subscribers (02, W4) among the calls have to meet.

use charging_model::clock::{self, LAST_SECOND};
use charging_model::event::{self, What};
use charging_model::mcdr::{self, Mcdr};
use charging_model::node::{Node, SLOTS};
use charging_model::step::{self, Step};
use charging_model::subscriber::{Imsi, Place, Subscriber, SUBSCRIBERS};
use std::collections::{BTreeMap, BTreeSet};

/// One call in so many, at least, is an event of a subscriber.
const SHARE: u64 = 3;
/// The answers that an event of a subscriber can get in a run.
const ANSWERS: [u8; 9] = [0, 2, 4, 5, 6, 11, 15, 16, 17];
const CAUSES: [u8; 4] = [0, 4, 19, 20];

/// Answers with a later row of the table that would have applied as well. Who
/// has no IMSI in range is attached nowhere, so that 5 never comes before 15.
const PAIRS: [(u8, u8); 17] = [
    (2, 4),
    (2, 5),
    (2, 6),
    (2, 11),
    (2, 15),
    (2, 16),
    (2, 17),
    (4, 6),
    (5, 6),
    (5, 11),
    (5, 16),
    (5, 17),
    (6, 11),
    (6, 15),
    (6, 16),
    (6, 17),
    (15, 17),
];

const NAMES: &[&str] = &[
    // lengths and fields
    "attach of 17 octets",
    "attach of 18 octets",
    "attach of 19 octets",
    "location change of 17 octets",
    "location change of 18 octets",
    "location change of 19 octets",
    "management of 14 octets",
    "management of 15 octets",
    "management of 16 octets",
    "detach of 15 octets",
    "detach of 16 octets",
    "detach of 17 octets",
    "IMSI of 6 digits",
    "IMSI of 7 digits",
    "IMSI of 14 digits",
    "IMSI of 15 digits",
    "IMSI of 5 digits",
    "IMSI of 16 digits",
    "IMSI with a half A to E",
    "IMSI with a digit after an F",
    "IMSI out of range in an attach",
    "IMSI out of range in a location change",
    "IMSI out of range in a management",
    "IMSI out of range in a detach",
    "cause 1 of a detach",
    "cause 18 of a detach",
    "cause 20 of a detach",
    "cause 255 of a detach",
    // times
    "time equal to the clock",
    "time later than the clock",
    "time one second back",
    "time 3,155,759,999",
    "time 3,155,760,000",
    "attach as the first event of a run",
    // the table
    "attach of the first",
    "attach that fills the table",
    "attached IMSI while the table is full",
    "detached IMSI attached again",
    "place used again below a taken one",
    "attach where all slots of contexts are taken",
    "16 contexts and 16 subscribers",
    "attach of an IMSI that a context has",
    "IMSIs that differ in the last digit, both attached",
    "IMSIs of which one begins the other, both attached",
    "16 where an attached IMSI differs in the last digit",
    "16 where an attached IMSI begins this one",
    "16 where this IMSI begins an attached one",
    "16 for a detached IMSI",
    "16 for an IMSI that a context has",
    "16 with nobody attached",
    "16 of a location change",
    "16 of a management",
    "16 of a detach",
    "8 where a subscriber is attached",
    // location changes
    "change to another place",
    "change of LAC alone",
    "change of RAC alone",
    "change to the same place",
    "change to the same place at the opening",
    "change to the same place with fourteen changes",
    "change back to the place before the last",
    "change back to the place at the opening",
    "change at the time of the change before",
    "first change of a record",
    "fourteenth change, and the record stays open",
    "fifteenth change closes",
    "first change after cause 19",
    "change to the place of the opening after cause 19",
    "change to the place of the opening after management",
    "change to the place that was the opening's before management",
    "more changes than the change limit of every set",
    "change of one subscriber with another in the same place",
    // records
    "record without changes by 20",
    "record with changes by 20",
    "record of 14 changes by 20",
    "record of 14 changes by a detach",
    "record of 15 changes at one time",
    "record of 15 changes at several times",
    "record of 15 changes between two places",
    "sole record by 0 without changes",
    "sole record by 4 without changes",
    "sole record by 0 with changes",
    "sole record by 4 with changes",
    "numbered detach by 0",
    "numbered detach by 4",
    "detach after cause 19",
    "number 1",
    "number 2",
    "number 3",
    "number 128 or above",
    "duration longer than to the last change",
    "duration to the last change",
    "duration 0",
    "duration of 2^31 or more",
    "list of 127 octets or less",
    "list of 128 to 255 octets",
    "list of 256 octets or more",
    "record of 127 octets or less",
    "record of 128 to 255 octets",
    "record of 256 octets or more",
    "LAC 0 at the opening",
    "LAC FFFF at the opening",
    "RAC 0 at the opening",
    "RAC FF at the opening",
    "LAC 0 in a change",
    "LAC FFFF in a change",
    "LAC 00FF in a change",
    "RAC 0 in a change",
    "RAC FF in a change",
    "record opened on 29 February",
    "change on 29 February",
    "record in the last second of a day",
    "node ID of 0 characters",
    "node ID of 20 characters",
    "offset below zero",
    "offset 0",
    "offset above zero",
    // room
    "room exact",
    "room one octet short",
    "room for the record but not the mark",
    "room 0 for a record",
    "room 0 and no output",
    "the event refused for room comes again and fits",
    // contexts beside
    "tariff with subscribers attached",
    "tariff that closes records with subscribers attached",
    "tick with subscribers attached",
    "tick with a subscriber's record open beyond the time limit of every set",
    "release of a context whose IMSI stays attached",
    "detach of an IMSI that a context has",
    "event of a context right after one of a subscriber",
];

#[derive(Default)]
pub struct Subscribers {
    /// All calls, and those with an event of a subscriber.
    pub calls: u64,
    events: u64,
    answers: BTreeMap<u8, u64>,
    causes: BTreeMap<u8, u64>,
    pairs: BTreeMap<(u8, u8), u64>,
    aims: BTreeMap<&'static str, u64>,
    /// IMSIs that were attached in this run and are not; and what closed the
    /// last record of those that are, with the place at that record's opening.
    detached: BTreeSet<Imsi>,
    last: BTreeMap<Imsi, (u8, Place)>,
    refused_for_room: Vec<u8>,
    /// Whether the event before was one of a subscriber, and taken.
    before: bool,
}

/// Halves of an IMSI that are digits, one after another.
fn halves(imsi: &Imsi) -> Vec<u8> {
    let all = imsi.iter().flat_map(|octet| [octet & 15, octet >> 4]);
    all.take_while(|half| *half <= 9).collect()
}

/// One more digit, or several, and else the same.
fn begins(short: &Imsi, long: &Imsi) -> bool {
    let (short, long) = (halves(short), halves(long));
    short.len() < long.len() && long.starts_with(&short)
}

fn differ_in_last(one: &Imsi, other: &Imsi) -> bool {
    let (one, other) = (halves(one), halves(other));
    let last = one.len().saturating_sub(1);
    one != other && one.len() == other.len() && one[..last] == other[..last]
}

impl Subscribers {
    pub fn new_run(&mut self) {
        self.detached.clear();
        self.last.clear();
        self.refused_for_room.clear();
        self.before = false;
    }

    pub fn pair(&mut self, answer: u8, row: u8) {
        *self.pairs.entry((answer, row)).or_default() += 1;
    }

    fn met(&mut self, name: &'static str, when: bool) {
        if when {
            assert!(NAMES.contains(&name), "no aim: {name}");
            *self.aims.entry(name).or_default() += 1;
        }
    }

    fn all_aims(&self) -> impl Iterator<Item = (&'static str, u64)> + '_ {
        NAMES.iter().map(|name| (*name, self.aims.get(name).copied().unwrap_or_default()))
    }

    pub fn missed(&self) -> Vec<String> {
        let mut missed = Vec::new();
        if self.events * SHARE < self.calls {
            missed.push(format!("one call in {SHARE} of a subscriber; {}", self.events));
        }
        let strange = self.answers.keys().filter(|a| !ANSWERS.contains(a));
        missed.extend(strange.map(|a| format!("a run without answer {a} of a subscriber")));
        let answers = ANSWERS.iter().filter(|a| !self.answers.contains_key(a));
        missed.extend(answers.map(|a| format!("answer {a} of a subscriber")));
        let causes = CAUSES.iter().filter(|c| !self.causes.contains_key(c));
        missed.extend(causes.map(|c| format!("M-CDR with cause {c}")));
        let pairs = PAIRS.iter().filter(|p| !self.pairs.contains_key(p));
        missed
            .extend(pairs.map(|p| format!("subscriber: answer {} where row {} applies", p.0, p.1)));
        let aims = self.all_aims().filter(|aim| aim.1 == 0);
        missed.extend(aims.map(|aim| format!("subscriber: {}", aim.0)));
        missed
    }

    pub fn table(&self) -> String {
        let mut text = format!("events of subscribers\n  {:>9}  in all\n", self.events);
        text += &format!("  {:>9}  calls in all\nanswers of subscribers\n", self.calls);
        for (answer, count) in &self.answers {
            text += &format!("  {answer:>2} {count:>9}\n");
        }
        text += "   7         -  out of a run's reach, as for contexts; so is 13\n";
        text += "M-CDRs by closing cause\n";
        for (cause, count) in &self.causes {
            text += &format!("  {cause:>2} {count:>9}\n");
        }
        text += "answers of subscribers where a later row applies too\n";
        for pair in PAIRS {
            let count = self.pairs.get(&pair).copied().unwrap_or_default();
            text += &format!("  {:>2}, {:>2} {count:>9}\n", pair.0, pair.1);
        }
        text += "aims of subscribers\n";
        for (name, count) in self.all_aims() {
            text += &format!("  {count:>9}  {name}\n");
        }
        text
    }

    /// An event, of a subscriber or not, with the node before it and what the
    /// model makes of it.
    pub fn count(&mut self, node: &Node, event: &[u8], room: usize, done: &Step) {
        self.calls += 1;
        let of_subscriber = event.len() >= event::HEAD && event::of_subscriber(event::kind(event));
        if of_subscriber {
            self.events += 1;
            *self.answers.entry(done.answer).or_default() += 1;
            self.count_octets(event, done.answer);
            self.count_of_subscriber(node, event, room, done);
        } else {
            self.count_beside(node, event, done);
        }
        let after = self.before && !of_subscriber && done.answer == 0;
        self.met("event of a context right after one of a subscriber", after);
        self.before = of_subscriber && done.answer == 0;
    }

    // ---- lengths, fields and times ----

    fn count_octets(&mut self, event: &[u8], answer: u8) {
        if answer == 2 {
            return;
        }
        self.count_length(event, answer);
        if answer == 4 {
            return;
        }
        let imsi = event::subscriber(event);
        let count = event::imsi_digits(&imsi);
        let (taken, refused) = (answer == 0, answer == 5);
        self.met("IMSI of 6 digits", count == 6 && taken);
        self.met("IMSI of 7 digits", count == 7 && taken);
        self.met("IMSI of 14 digits", count == 14 && taken);
        self.met("IMSI of 15 digits", count == 15 && taken);
        self.met("IMSI of 5 digits", count == 5 && refused);
        self.met("IMSI of 16 digits", count == 16 && refused);
        let later: Vec<u8> =
            imsi.iter().flat_map(|octet| [octet & 15, octet >> 4]).skip(count).collect();
        let strange = later.iter().any(|half| (10..15).contains(half));
        self.met("IMSI with a half A to E", refused && strange);
        let digit = later.iter().any(|half| *half <= 9);
        self.met("IMSI with a digit after an F", refused && digit && !strange);
        let bad = !event::imsi_in_range(&imsi);
        match event::what(event) {
            What::Attach(..) => self.met("IMSI out of range in an attach", bad),
            What::Location(..) => self.met("IMSI out of range in a location change", bad),
            What::SubscriberManagement(_) => self.met("IMSI out of range in a management", bad),
            What::Detach(_, cause) => {
                let alone = bad && event::detach_cause_in_range(cause);
                self.met("IMSI out of range in a detach", alone);
                self.met("cause 1 of a detach", cause == 1 && !bad);
                self.met("cause 18 of a detach", cause == 18 && !bad);
                self.met("cause 20 of a detach", cause == 20 && !bad);
                self.met("cause 255 of a detach", cause == 255 && !bad);
            }
            _ => {}
        }
    }

    /// The kind's length is one that is taken, and the lengths beside it are 4.
    fn count_length(&mut self, event: &[u8], answer: u8) {
        let names: [(u8, usize, [&'static str; 3]); 4] = [
            (
                event::ATTACH,
                18,
                ["attach of 17 octets", "attach of 18 octets", "attach of 19 octets"],
            ),
            (
                event::LOCATION,
                18,
                [
                    "location change of 17 octets",
                    "location change of 18 octets",
                    "location change of 19 octets",
                ],
            ),
            (
                event::SUBSCRIBER_MANAGEMENT,
                15,
                ["management of 14 octets", "management of 15 octets", "management of 16 octets"],
            ),
            (
                event::DETACH,
                16,
                ["detach of 15 octets", "detach of 16 octets", "detach of 17 octets"],
            ),
        ];
        let (_, whole, names) = names.iter().find(|n| n.0 == event::kind(event)).unwrap();
        self.met(names[0], answer == 4 && event.len() + 1 == *whole);
        self.met(names[1], answer == 0 && event.len() == *whole);
        self.met(names[2], answer == 4 && event.len() == *whole + 1);
    }

    fn count_time(&mut self, node: &Node, event: &[u8], answer: u8) {
        let time = event::time(event);
        let taken = answer == 0;
        self.met("time equal to the clock", taken && time == node.clock && node.accepted > 0);
        self.met("time later than the clock", taken && time > node.clock);
        self.met("time 3,155,759,999", taken && time == LAST_SECOND);
        let late = answer == 6;
        self.met("time one second back", late && node.clock.checked_sub(1) == Some(time));
        self.met("time 3,155,760,000", late && time == LAST_SECOND + 1);
        self.met("attach as the first event of a run", taken && node.accepted == 0);
    }

    // ---- who is attached ----

    fn count_of_subscriber(&mut self, node: &Node, event: &[u8], room: usize, done: &Step) {
        if !matches!(done.answer, 0 | 6 | 11 | 15 | 16 | 17) {
            return;
        }
        self.count_time(node, event, done.answer);
        let imsi = event::subscriber(event);
        let full = node.attached() == SUBSCRIBERS;
        self.met("attached IMSI while the table is full", done.answer == 15 && full);
        if done.answer == 16 {
            self.count_unknown(node, event::kind(event), imsi);
        }
        if matches!(done.answer, 0 | 11) {
            self.count_room(node, event, room, done.answer);
        }
        if done.answer == 0 {
            self.count_taken(node, event, done);
        }
        self.refused_for_room = if done.answer == 11 { event.to_vec() } else { Vec::new() };
    }

    fn count_unknown(&mut self, node: &Node, kind: u8, imsi: Imsi) {
        let any = |near: fn(&Imsi, &Imsi) -> bool| {
            node.subscribers.iter().flatten().any(|s| near(&s.imsi, &imsi))
        };
        let last = any(differ_in_last);
        let begun = any(begins);
        let begun_by = any(|attached, asked| begins(asked, attached));
        self.met("16 where an attached IMSI differs in the last digit", last);
        self.met("16 where an attached IMSI begins this one", begun);
        self.met("16 where this IMSI begins an attached one", begun_by);
        self.met("16 for a detached IMSI", self.detached.contains(&imsi));
        self.met("16 for an IMSI that a context has", has_context(node, imsi));
        self.met("16 with nobody attached", node.attached() == 0);
        self.met("16 of a location change", kind == event::LOCATION);
        self.met("16 of a management", kind == event::SUBSCRIBER_MANAGEMENT);
        self.met("16 of a detach", kind == event::DETACH);
    }

    fn count_taken(&mut self, node: &Node, event: &[u8], done: &Step) {
        let time = event::time(event);
        match event::what(event) {
            What::Attach(imsi, _) => self.count_attach(node, imsi),
            What::Location(imsi, place) => {
                let at = node.find_subscriber(imsi).unwrap();
                let subscriber = node.subscribers[at].as_ref().unwrap();
                self.count_change(node, subscriber, place, time, !done.records.is_empty());
            }
            What::Detach(imsi, _) => {
                self.met("detach of an IMSI that a context has", has_context(node, imsi));
                let last = self.last.get(&imsi).map(|last| last.0);
                self.met("detach after cause 19", last == Some(19));
            }
            _ => {}
        }
        if let Some(record) = done.records.first().and_then(|record| record.m()) {
            self.count_record(record);
            match record.number {
                Some(_) if !matches!(record.cause, 0 | 4) => {
                    self.last.insert(record.imsi, (record.cause, record.place));
                }
                _ => {
                    self.last.remove(&record.imsi);
                    self.detached.insert(record.imsi);
                }
            }
        }
    }

    fn count_attach(&mut self, node: &Node, imsi: Imsi) {
        self.met("attach of the first", node.attached() == 0);
        self.met("attach that fills the table", node.attached() + 1 == SUBSCRIBERS);
        let again = self.detached.remove(&imsi);
        self.met("detached IMSI attached again", again);
        let free = node.lowest_free_place().unwrap();
        let below = node.subscribers[free..].iter().any(Option::is_some);
        self.met("place used again below a taken one", below);
        let all = node.active() == SLOTS;
        self.met("attach where all slots of contexts are taken", all);
        self.met("16 contexts and 16 subscribers", all && node.attached() + 1 == SUBSCRIBERS);
        self.met("attach of an IMSI that a context has", has_context(node, imsi));
        let mut others = node.subscribers.iter().flatten();
        let last = others.clone().any(|s| differ_in_last(&s.imsi, &imsi));
        self.met("IMSIs that differ in the last digit, both attached", last);
        let prefix = others.any(|s| begins(&s.imsi, &imsi) || begins(&imsi, &s.imsi));
        self.met("IMSIs of which one begins the other, both attached", prefix);
    }

    // ---- location changes ----

    fn count_change(
        &mut self,
        node: &Node,
        subscriber: &Subscriber,
        place: Place,
        time: u32,
        closed: bool,
    ) {
        let (old, count) = (subscriber.place_in_force(), subscriber.changes.len());
        let last = self.last.get(&subscriber.imsi).copied();
        if place == old {
            self.met("change to the same place", true);
            self.met("change to the same place at the opening", count == 0);
            self.met("change to the same place with fourteen changes", count == 14);
            let after = |cause| count == 0 && last.map(|last| last.0) == Some(cause);
            self.met("change to the place of the opening after cause 19", after(19));
            self.met("change to the place of the opening after management", after(20));
            return;
        }
        self.met("change to another place", true);
        self.met("change of LAC alone", place.rac == old.rac);
        self.met("change of RAC alone", place.lac == old.lac);
        let before = match count {
            0 => None,
            1 => Some(subscriber.place),
            _ => Some(subscriber.changes[count - 2].place),
        };
        self.met("change back to the place before the last", before == Some(place));
        let opening = count > 0 && place == subscriber.place;
        self.met("change back to the place at the opening", opening);
        let same_time = subscriber.changes.last().is_some_and(|change| change.time == time);
        self.met("change at the time of the change before", same_time);
        self.met("first change of a record", count == 0);
        self.met("fourteenth change, and the record stays open", count == 13 && !closed);
        self.met("fifteenth change closes", count == 14 && closed);
        let first_after_19 = count == 0 && last.map(|last| last.0) == Some(19);
        self.met("first change after cause 19", first_after_19);
        let returned = count == 0 && last == Some((20, place));
        self.met("change to the place that was the opening's before management", returned);
        let more = node.sets.iter().all(|set| count + 1 > set.limits.changes.into());
        self.met("more changes than the change limit of every set", more && !closed);
        let mut others = node.subscribers.iter().flatten().filter(|s| s.imsi != subscriber.imsi);
        let beside = others.any(|s| s.place_in_force() == old);
        self.met("change of one subscriber with another in the same place", beside);
    }

    // ---- records ----

    fn count_record(&mut self, record: &Mcdr) {
        *self.causes.entry(record.cause).or_default() += 1;
        let (cause, count) = (record.cause, record.changes.len());
        self.met("record without changes by 20", cause == 20 && count == 0);
        self.met("record with changes by 20", cause == 20 && count > 0);
        self.met("record of 14 changes by 20", cause == 20 && count == 14);
        self.met("record of 14 changes by a detach", matches!(cause, 0 | 4) && count == 14);
        if count == 15 {
            let at_once = record.changes.iter().all(|change| change.time == record.closed);
            self.met("record of 15 changes at one time", at_once);
            self.met("record of 15 changes at several times", !at_once);
            let mut turns = record.changes.windows(3);
            let two = turns.all(|three| three[0].place == three[2].place);
            self.met("record of 15 changes between two places", two);
        }
        self.count_number(record);
        let last = record.changes.last().map(|change| change.time);
        let longer = last.is_some_and(|last| last < record.closed);
        self.met("duration longer than to the last change", longer);
        let to_last = record.cause != 19 && last == Some(record.closed);
        self.met("duration to the last change", to_last);
        self.met("duration 0", record.closed == record.opened);
        self.met("duration of 2^31 or more", record.closed - record.opened >= 1 << 31);
        self.count_sizes(record);
        self.count_places(record);
        self.count_days(record);
        self.met("node ID of 0 characters", record.node_id.is_empty());
        self.met("node ID of 20 characters", record.node_id.len() == 20);
        self.met("offset below zero", record.offset < 0);
        self.met("offset 0", record.offset == 0);
        self.met("offset above zero", record.offset > 0);
    }

    fn count_number(&mut self, record: &Mcdr) {
        let (cause, empty) = (record.cause, record.changes.is_empty());
        let sole = record.number.is_none();
        self.met("sole record by 0 without changes", sole && cause == 0 && empty);
        self.met("sole record by 4 without changes", sole && cause == 4 && empty);
        self.met("sole record by 0 with changes", sole && cause == 0 && !empty);
        self.met("sole record by 4 with changes", sole && cause == 4 && !empty);
        self.met("numbered detach by 0", !sole && cause == 0);
        self.met("numbered detach by 4", !sole && cause == 4);
        self.met("number 1", record.number == Some(1));
        self.met("number 2", record.number == Some(2));
        self.met("number 3", record.number == Some(3));
        self.met("number 128 or above", record.number.is_some_and(|n| n >= 128));
    }

    /// Lengths take one octet, two or three.
    fn count_sizes(&mut self, record: &Mcdr) {
        let list = 20 * record.changes.len();
        self.met("list of 127 octets or less", (1..128).contains(&list));
        self.met("list of 128 to 255 octets", (128..256).contains(&list));
        self.met("list of 256 octets or more", list >= 256);
        let octets = mcdr::octets(record);
        self.met("record of 127 octets or less", octets[1] < 0x80);
        self.met("record of 128 to 255 octets", octets[1] == 0x81);
        self.met("record of 256 octets or more", octets[1] == 0x82);
    }

    fn count_places(&mut self, record: &Mcdr) {
        self.met("LAC 0 at the opening", record.place.lac == 0);
        self.met("LAC FFFF at the opening", record.place.lac == 0xFFFF);
        self.met("RAC 0 at the opening", record.place.rac == 0);
        self.met("RAC FF at the opening", record.place.rac == 0xFF);
        for change in &record.changes {
            self.met("LAC 0 in a change", change.place.lac == 0);
            self.met("LAC FFFF in a change", change.place.lac == 0xFFFF);
            self.met("LAC 00FF in a change", change.place.lac == 0x00FF);
            self.met("RAC 0 in a change", change.place.rac == 0);
            self.met("RAC FF in a change", change.place.rac == 0xFF);
        }
    }

    fn count_days(&mut self, record: &Mcdr) {
        let leap = |time: u32| {
            let (_, month, day) = clock::date(time / 86_400);
            (month, day) == (2, 29)
        };
        self.met("record opened on 29 February", leap(record.opened));
        self.met("change on 29 February", record.changes.iter().any(|change| leap(change.time)));
        self.met("record in the last second of a day", record.closed % 86_400 == 86_399);
    }

    fn count_room(&mut self, node: &Node, event: &[u8], room: usize, answer: u8) {
        let records = step::accept(node, event).1;
        let needed = step::output(&records).len();
        let some = !records.is_empty();
        self.met("room exact", some && room == needed);
        self.met("room one octet short", some && room + 1 == needed);
        let bare = some && room < needed && room + 2 >= needed;
        self.met("room for the record but not the mark", bare);
        self.met("room 0 for a record", some && room == 0);
        self.met("room 0 and no output", !some && room == 0);
        let again = answer == 0 && self.refused_for_room == event;
        self.met("the event refused for room comes again and fits", again);
    }

    // ---- events of contexts, and what they leave alone ----

    fn count_beside(&mut self, node: &Node, event: &[u8], done: &Step) {
        let attached = node.attached() > 0;
        self.met("8 where a subscriber is attached", done.answer == 8 && attached);
        if done.answer != 0 || !attached {
            return;
        }
        let time = event::time(event);
        match event::what(event) {
            What::Tariff => {
                self.met("tariff with subscribers attached", true);
                let closes = !done.records.is_empty();
                self.met("tariff that closes records with subscribers attached", closes);
            }
            What::Tick => {
                self.met("tick with subscribers attached", true);
                let limit = node.sets.iter().map(|set| set.limits.time).max().unwrap();
                let mut attached = node.subscribers.iter().flatten();
                let beyond = attached.any(|s| time - s.opened >= limit);
                let name =
                    "tick with a subscriber's record open beyond the time limit of every set";
                self.met(name, beyond);
            }
            What::Release(name, _) => {
                let slot = node.find(name).unwrap();
                let imsi = node.slots[slot].as_ref().unwrap().start.imsi;
                let stays = node.find_subscriber(imsi).is_some();
                self.met("release of a context whose IMSI stays attached", stays);
            }
            _ => {}
        }
    }
}

fn has_context(node: &Node, imsi: Imsi) -> bool {
    node.slots.iter().flatten().any(|context| context.start.imsi == imsi)
}
