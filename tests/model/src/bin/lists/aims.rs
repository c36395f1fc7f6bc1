//! What the cases have to meet.

use crate::cases::Case;
use crate::lengths;
use crate::made::{sorts, Made};
use crate::records::{MOST_CONTAINERS, MOST_NUMBER};
use charging_model::cdr::Cdr;
use charging_model::count::{count, in_turns, Count, Fault, Refused, MOST, STEP};
use charging_model::event::Name;
use charging_model::record::{integer, Record};
use std::collections::{BTreeMap, BTreeSet};

type Answer = Result<Count, Refused>;

const ANSWERS: [&str; 10] = [
    "no record of the name",
    "one, with a number",
    "one, without",
    "two to nine",
    "ten or more",
    "21 mark",
    "21 cut",
    "21 value",
    "21 field",
    "21 behind records of the name",
];

/// Of whole lists.
const VALUES: [&str; 16] = [
    "an empty list",
    "M-CDRs alone",
    "records of both kinds",
    "an M-CDR whose duration is the charging ID",
    "such a one, and records of the name",
    "the last of the name has no number, one before it has",
    "the last of the name has a number, none before it has",
    "the last of the name has a lower number than one before it",
    "the charging ID at another GGSN",
    "another charging ID at the GGSN",
    "twenty names or more",
    "forty records or more",
    "more than 60,000 octets",
    "a record of 913 octets, the longest",
    "fifteen containers, of the name",
    "charging ID 0, found",
];

/// Of the records of the name in whole lists.
const OF_NAME: [&str; 4] = [
    "every field that may be left out, but 95",
    "every field that may be left out, but 92",
    "no field that may be left out",
    "number 10^15",
];

const ID_OCTETS: [&str; 5] = [
    "charging ID of one octet, found",
    "charging ID of two octets, found",
    "charging ID of three octets, found",
    "charging ID of four octets, found",
    "charging ID of five octets (top bit), found",
];

const NUMBER_OCTETS: [&str; 7] = [
    "number of one octet",
    "number of two octets",
    "number of three octets",
    "number of four octets",
    "number of five octets",
    "number of six octets",
    "number of seven octets",
];

const WINDOWS: [&str; 14] = [
    "W of 1 to 1,025",
    "W of 1,026",
    "W as long as the list",
    "W one less than the list",
    "several turns",
    "ten turns or more",
    "several turns, and records of the name in two of them",
    "several turns, and the last of the name before the last turn",
    "several turns, then mark",
    "several turns, then cut",
    "several turns, then value",
    "several turns, then field",
    "a record of 1,024 octets and W of 1,026",
    "a record of 1,024 octets whose last one is not in hand at first",
];

#[derive(Default)]
pub struct Aims {
    met: BTreeMap<&'static str, usize>,
}

fn all() -> Vec<&'static str> {
    let mut all = sorts();
    all.extend(ANSWERS);
    all.extend(VALUES);
    all.extend(OF_NAME);
    all.extend(ID_OCTETS);
    all.extend(NUMBER_OCTETS);
    all.extend(WINDOWS);
    all
}

/// A record with every optional field but the one that its number rules out.
fn everything(record: &Record) -> Option<&'static str> {
    let most = record.network_initiated && !record.node_id.is_empty();
    match record.number {
        None if most && record.sgsn_change => Some(OF_NAME[0]),
        Some(_) if most && !record.sgsn_change => Some(OF_NAME[1]),
        None if !record.network_initiated && !record.sgsn_change && record.node_id.is_empty() => {
            Some(OF_NAME[2])
        }
        _ => None,
    }
}

impl Aims {
    fn meet(&mut self, what: &'static str) {
        *self.met.entry(what).or_default() += 1;
    }

    fn meet_if(&mut self, what: &'static str, met: bool) {
        if met {
            self.meet(what);
        }
    }

    fn answer(&mut self, case: &Case, answer: &Answer) {
        let (what, begin) = match answer {
            Ok(Count { records: 0, .. }) => (ANSWERS[0], 0),
            Ok(Count { records: 1, number: Some(_) }) => (ANSWERS[1], 0),
            Ok(Count { records: 1, number: None }) => (ANSWERS[2], 0),
            Ok(Count { records: 2..=9, .. }) => (ANSWERS[3], 0),
            Ok(_) => (ANSWERS[4], 0),
            Err(Refused { fault: Fault::Mark, at }) => (ANSWERS[5], *at),
            Err(Refused { fault: Fault::Cut, at }) => (ANSWERS[6], *at),
            Err(Refused { fault: Fault::Value, at }) => (ANSWERS[7], at - 2),
            Err(Refused { fault: Fault::Field, .. }) => (ANSWERS[8], 0),
        };
        self.meet(what);
        // the list before the record that is refused
        let before = count(&case.list[..begin], case.name);
        self.meet_if(ANSWERS[9], before.is_ok_and(|count| count.records > 0));
    }

    fn numbers(&mut self, of_name: &[&Record]) {
        let Some((last, before)) = of_name.split_last() else { return };
        let numbers: Vec<u64> = before.iter().filter_map(|record| record.number).collect();
        self.meet_if(VALUES[5], last.number.is_none() && !numbers.is_empty());
        let first = !before.is_empty() && numbers.is_empty();
        self.meet_if(VALUES[6], last.number.is_some() && first);
        let lower = |number: u64| numbers.iter().any(|before| number < *before);
        self.meet_if(VALUES[7], last.number.is_some_and(lower));
        if let Some(number) = last.number {
            self.meet(NUMBER_OCTETS[integer(number).len() - 1]);
            self.meet_if(OF_NAME[3], number == MOST_NUMBER);
        }
    }

    fn of_name(&mut self, of_name: &[&Record], name: Name) {
        self.numbers(of_name);
        for record in of_name {
            self.meet_if(VALUES[14], record.containers.len() as u64 == MOST_CONTAINERS);
            everything(record).into_iter().for_each(|what| self.meet(what));
        }
        if !of_name.is_empty() {
            self.meet(ID_OCTETS[integer(name.charging_id.into()).len() - 1]);
            self.meet_if(VALUES[15], name.charging_id == 0);
        }
    }

    fn values(&mut self, records: &[Cdr], name: Name) {
        let s: Vec<&Record> = records.iter().filter_map(Cdr::s).collect();
        let is_duration = |record: &Cdr| {
            record.m().is_some_and(|record| record.closed - record.opened == name.charging_id)
        };
        let duration = records.iter().any(is_duration);
        let (of_name, others): (Vec<&Record>, Vec<&Record>) =
            s.iter().partition(|record| record.name == name);
        self.meet_if(VALUES[0], records.is_empty());
        self.meet_if(VALUES[1], !records.is_empty() && s.is_empty());
        self.meet_if(VALUES[2], !s.is_empty() && s.len() < records.len());
        self.meet_if(VALUES[3], duration);
        self.meet_if(VALUES[4], duration && !of_name.is_empty());
        self.meet_if(VALUES[8], others.iter().any(|r| r.name.charging_id == name.charging_id));
        self.meet_if(VALUES[9], others.iter().any(|r| r.name.ggsn == name.ggsn));
        let names: BTreeSet<Name> = s.iter().map(|record| record.name).collect();
        self.meet_if(VALUES[10], names.len() >= 20);
        self.meet_if(VALUES[11], records.len() >= 40);
        self.meet_if(VALUES[13], records.iter().any(|record| record.octets().len() == 913));
        self.of_name(&of_name, name);
    }

    fn window(&mut self, case: &Case, made: &Made, answer: &Answer) {
        let (window, length) = (case.window, case.list.len());
        self.meet_if(WINDOWS[0], (1..STEP).contains(&window));
        if window < STEP {
            return;
        }
        self.meet_if(WINDOWS[1], window == STEP);
        self.meet_if(WINDOWS[2], window == length);
        self.meet_if(WINDOWS[3], window + 1 == length);
        if made.sort == lengths::LONGEST {
            self.meet_if(WINDOWS[12], window == STEP);
            let in_hand = made.begin.and_then(|begin| window.checked_sub(begin));
            self.meet_if(WINDOWS[13], in_hand == Some(STEP - 1));
        }
        let mut found = Vec::new();
        let _ = in_turns(&case.list, case.name, window, |tally| found.push(tally.count.records));
        let turns = found.len() + usize::from(answer.is_err());
        if turns < 2 {
            return;
        }
        self.meet(WINDOWS[4]);
        self.meet_if(WINDOWS[5], turns >= 10);
        let Err(refused) = answer else { return self.turns(&found) };
        let what = match refused.fault {
            Fault::Mark => WINDOWS[8],
            Fault::Cut => WINDOWS[9],
            Fault::Value => WINDOWS[10],
            Fault::Field => WINDOWS[11],
        };
        self.meet(what);
    }

    /// The count after each of several turns.
    fn turns(&mut self, found: &[usize]) {
        let counts: BTreeSet<usize> = found.iter().copied().filter(|count| *count > 0).collect();
        self.meet_if(WINDOWS[6], counts.len() >= 2);
        let (last, before) = (found[found.len() - 1], found[found.len() - 2]);
        self.meet_if(WINDOWS[7], last > 0 && last == before);
    }

    /// Counts what a case meets.
    pub fn count(&mut self, case: &Case, made: &Made, answer: &Answer) {
        self.meet(made.sort);
        self.answer(case, answer);
        self.window(case, made, answer);
        if let Some(records) = &made.records {
            self.values(records, case.name);
            self.meet_if(VALUES[12], case.list.len() > 60_000);
            assert!(records.iter().all(|record| record.octets().len() <= MOST));
        }
    }

    pub fn table(&self) -> String {
        let times = |what: &str| self.met.get(what).copied().unwrap_or(0);
        all().into_iter().map(|what| format!("{:7}  {what}\n", times(what))).collect()
    }

    pub fn missed(&self) -> Vec<&'static str> {
        let all = all();
        assert!(self.met.keys().all(|what| all.contains(what)));
        all.into_iter().filter(|what| !self.met.contains_key(what)).collect()
    }
}
