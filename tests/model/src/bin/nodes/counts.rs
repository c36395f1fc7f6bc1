//! What the cases have met, and what they must meet.

use crate::batches::pair_refused;
use crate::cases::{Case, Lent};
use crate::limits::LIMITS;
use crate::limits_of_sets::differ;
use crate::sound::{broken, RULES};
use crate::stored::{LimitSet, Limits, Stored, APN, CHANGES, NODE_ID, PLACES, SETS};
use charging_model::batch::{Batch, Batched};
use charging_model::cdr::Cdr;
use charging_model::event;
use charging_model::node::MOST_ACCEPTED;
use std::collections::hash_map::DefaultHasher;
use std::collections::{BTreeMap, BTreeSet, HashSet};
use std::hash::{Hash, Hasher};

/// "at least 20,000 nodes", and how often each rule, part, limit and answer.
pub const NODES: usize = 20_000;
pub const TIMES: usize = 100;
/// Batches in all, and how often each rule is broken where one is asked for.
pub const BATCHES: usize = 3_000;
pub const BATCH_TIMES: usize = 10;

/// How often something was met in all, and how often in the way that tells
/// most: a rule as the only one broken, a limit gone over.
type Twice = (usize, usize);

#[derive(Default)]
pub struct Counts {
    pub cases: usize,
    nodes: HashSet<u64>,
    zero: usize,
    /// By how many rules the node breaks.
    broken: BTreeMap<usize, usize>,
    rules: BTreeMap<&'static str, Twice>,
    parts: BTreeMap<(usize, &'static str), Twice>,
    limits: BTreeMap<&'static str, Twice>,
    answers: BTreeMap<u8, usize>,
    causes: BTreeMap<u8, usize>,
    /// The same of M-CDRs, and by how many changes they list.
    m_causes: BTreeMap<u8, usize>,
    m_changes: BTreeMap<usize, usize>,
    /// Capitals that were stored, and activations that were accepted.
    capitals: BTreeMap<u8, usize>,
    spelled: BTreeMap<&'static str, usize>,
    /// Sound nodes by how many sets of limits they have, and what was met of
    /// these.
    sets: BTreeMap<usize, usize>,
    of_sets: BTreeMap<&'static str, usize>,
    /// Octets and places that were not zero and had to be.
    octets: BTreeMap<(&'static str, usize), usize>,
    batches: Batches,
}

/// What the batches among the cases have met; all other counts are of events.
#[derive(Default)]
struct Batches {
    all: usize,
    answers: BTreeMap<u8, usize>,
    rules: BTreeMap<&'static str, usize>,
    limits: BTreeMap<&'static str, usize>,
    met: BTreeMap<&'static str, usize>,
}

const BATCH_ANSWERS: [u8; 7] = [0, 6, 7, 8, 11, 13, 14];
const BATCH_MET: [&str; 13] = [
    "13 for an empty list",
    "13 for a list of odd length",
    "13 for pairs",
    "an empty list on a sound node",
    "an empty list whose name or time a pair would be refused for",
    "14 where a pair would be refused with 6, 7 or 8",
    "7 in the middle",
    "7 at the first pair",
    "11 in the middle",
    "11 with records kept",
    "several records",
    "a record of several containers",
    "the last event that may be accepted",
];

const SPELLED: [&str; 3] = [
    "activations without capitals, accepted",
    "activations with capitals, accepted",
    "activations refused with 5 for the APN",
];

const OF_SETS: [&str; 6] = [
    "sound nodes with an open record whose limits are not its set's",
    "replacements accepted",
    "replacements accepted with an open record of the set",
    "replacements refused with 18",
    "replacements refused with 5",
    "activations refused with 18",
];

const ANSWERS: [u8; 18] = [0, 1, 2, 3, 4, 5, 6, 7, 8, 9, 10, 11, 13, 15, 16, 17, 18, 19];
const CAUSES: [u8; 7] = [0, 4, 16, 17, 18, 19, 20];
const M_CAUSES: [u8; 4] = [0, 4, 19, 20];

fn count<K: Ord>(counts: &mut BTreeMap<K, Twice>, key: K, most: bool) {
    let count = counts.entry(key).or_default();
    count.0 += 1;
    count.1 += usize::from(most);
}

fn of<K: Ord, V: Copy + Default>(counts: &BTreeMap<K, V>, key: K) -> V {
    counts.get(&key).copied().unwrap_or_default()
}

impl Counts {
    /// Adds a case; of a sound node what the model makes of it too.
    pub fn add(&mut self, case: &Case, answer: u8, done: Option<&Batched>) {
        self.cases += 1;
        match &case.lent {
            Lent::Event(event) => {
                self.add_event(&case.node, answer, done);
                self.add_apn(event, answer);
                self.add_sets(&case.node, event, answer);
            }
            Lent::Batch(batch) => self.batches.add(&case.node, batch, answer, done),
        }
    }

    fn add_event(&mut self, node: &Stored, answer: u8, done: Option<&Batched>) {
        let mut hasher = DefaultHasher::new();
        node.octets().hash(&mut hasher);
        self.nodes.insert(hasher.finish());
        self.zero += usize::from(*node == Stored::zero());
        *self.answers.entry(answer).or_default() += 1;
        let parts = broken(node);
        let rules: BTreeSet<usize> = parts.iter().map(|part| part.0).collect();
        *self.broken.entry(rules.len()).or_default() += 1;
        for rule in &rules {
            count(&mut self.rules, RULES[*rule].name, rules.len() == 1);
        }
        for part in &parts {
            count(&mut self.parts, *part, parts.len() == 1);
        }
        if let Some(done) = done {
            for record in &done.records {
                self.add_record(record);
            }
            for limit in LIMITS.iter().filter(|limit| (limit.at)(node)) {
                count(&mut self.limits, limit.name, (limit.over)(node, done));
            }
        }
        self.add_octets(node);
    }

    fn add_record(&mut self, record: &Cdr) {
        match record {
            Cdr::S(record) => *self.causes.entry(record.cause).or_default() += 1,
            Cdr::M(record) => {
                *self.m_causes.entry(record.cause).or_default() += 1;
                *self.m_changes.entry(record.changes.len()).or_default() += 1;
            }
        }
    }

    /// The APN of an activation that has the right length.
    fn add_apn(&mut self, event: &[u8], answer: u8) {
        if !matches!(answer, 0 | 5) || event::kind(event) != event::ACTIVATE {
            return;
        }
        let apn = &event[37..];
        let capitals = apn.iter().any(u8::is_ascii_uppercase);
        let mut met = |name, when| *self.spelled.entry(name).or_default() += usize::from(when);
        met("activations without capitals, accepted", answer == 0 && !capitals);
        met("activations with capitals, accepted", answer == 0 && capitals);
        let refused = !event::apn_in_range(&event::lowered(apn));
        met("activations refused with 5 for the APN", answer == 5 && refused);
    }

    /// The sets of a sound node, and the events that name one.
    fn add_sets(&mut self, node: &Stored, event: &[u8], answer: u8) {
        if answer == 13 {
            return;
        }
        *self.sets.entry(node.sets()).or_default() += 1;
        let mut met = |name, when| *self.of_sets.entry(name).or_default() += usize::from(when);
        let other = node.active().any(|context| differ(node, context));
        met("sound nodes with an open record whose limits are not its set's", other);
        if event.len() < event::HEAD || answer < 4 && answer != 0 {
            return;
        }
        let kind = event::kind(event);
        met("activations refused with 18", answer == 18 && kind == event::ACTIVATE);
        if kind == event::REPLACE {
            let of_set = node.active().any(|context| context.set == event::set(event));
            met("replacements accepted", answer == 0);
            met("replacements accepted with an open record of the set", answer == 0 && of_set);
            met("replacements refused with 18", answer == 18);
            met("replacements refused with 5", answer == 5);
        }
    }

    fn add_octets(&mut self, node: &Stored) {
        let mut add = |name, at| *self.octets.entry((name, at)).or_default() += 1;
        for at in node.sets()..SETS {
            if node.profile.limits[at] != Limits::default() {
                add("profile's unused limits", at);
            }
            if node.settings[at] != LimitSet::default() {
                add("unused set", at);
            }
        }
        let from = node.profile.nodelen.min(NODE_ID as u64) as usize;
        for at in (from..NODE_ID).filter(|at| node.profile.nodeid[*at] != 0) {
            add("node ID's unused octet", at);
        }
        for c in node.active().flat_map(|c| c.apn()).filter(|c| c.is_ascii_uppercase()) {
            *self.capitals.entry(*c).or_default() += 1;
        }
        for context in &node.contexts {
            let free = context.active == 0;
            let from = if free { 0 } else { context.apn().len() };
            let name = if free { "free slot's APN octet" } else { "APN's unused octet" };
            for at in (from..APN).filter(|at| context.apn[*at] != 0) {
                add(name, at);
            }
            let from = if free { 0 } else { context.used().len() };
            let name = if free { "free slot's place" } else { "unused place" };
            let zero = Default::default();
            for at in (from..PLACES).filter(|at| context.containers[*at] != zero) {
                add(name, at);
            }
            for at in (0..8).filter(|at| free && context.imsi[*at] != 0) {
                add("free slot's IMSI octet", at);
            }
            for at in (0..5).filter(|at| free && context.qos[*at] != 0) {
                add("free slot's QoS octet", at);
            }
        }
        for subscriber in &node.subscribers {
            let free = subscriber.active == 0;
            let from = if free { 0 } else { subscriber.used().len() };
            let name = if free { "free place's change" } else { "unused change" };
            let zero = Default::default();
            for at in (from..CHANGES).filter(|at| subscriber.changes[*at] != zero) {
                add(name, at);
            }
            for at in (0..8).filter(|at| free && subscriber.imsi[*at] != 0) {
                add("free place's IMSI octet", at);
            }
        }
    }

    /// Every count with its name and how many it must be.
    fn lines(&self) -> Vec<(String, usize, usize)> {
        let mut lines = Vec::new();
        let mut line = |name: String, met, least| lines.push((name, met, least));
        line("different nodes".into(), self.nodes.len(), NODES);
        line("nodes of zeros alone, as 12 leaves them".into(), self.zero, 1);
        line("sound nodes".into(), of(&self.broken, 0), NODES / 4);
        line("nodes that break one rule".into(), of(&self.broken, 1), NODES / 4);
        line("nodes that break two rules".into(), of(&self.broken, 2), NODES / 20);
        for (at, rule) in RULES.iter().enumerate() {
            let (all, alone) = of(&self.rules, rule.name);
            line(format!("break {}", rule.name), all, TIMES);
            line(format!("break {} alone", rule.name), alone, TIMES);
            for part in rule.parts.iter().filter(|_| rule.parts.len() > 1) {
                let (all, alone) = of(&self.parts, (at, *part));
                line(format!("break {} ({part})", rule.name), all, TIMES);
                line(format!("break {} ({part}) alone", rule.name), alone, TIMES / 2);
            }
        }
        for limit in LIMITS {
            let (all, over) = of(&self.limits, limit.name);
            line(format!("sound, with {}", limit.name), all, TIMES);
            line(format!("sound, with {}, and the call goes there", limit.name), over, TIMES / 2);
        }
        for answer in ANSWERS {
            line(format!("answer {answer}"), of(&self.answers, answer), TIMES / 2);
        }
        for cause in CAUSES {
            line(format!("records with cause {cause}"), of(&self.causes, cause), TIMES);
        }
        for cause in M_CAUSES {
            let met = of(&self.m_causes, cause);
            line(format!("M-CDRs with cause {cause}"), met, TIMES / 2);
        }
        for changes in [0, 1, 14, 15] {
            let met = of(&self.m_changes, changes);
            line(format!("M-CDRs with {changes} changes"), met, TIMES / 2);
        }
        for name in SPELLED {
            line(name.into(), of(&self.spelled, name), TIMES);
        }
        for sets in 1..=SETS {
            line(format!("sound nodes with {sets} sets"), of(&self.sets, sets), TIMES);
        }
        for name in OF_SETS {
            line(name.into(), of(&self.of_sets, name), TIMES);
        }
        for edge in *b"AZ" {
            line(format!("{} stored", edge as char), of(&self.capitals, edge), TIMES / 2);
        }
        let least = (b'A'..=b'Z').map(|c| of(&self.capitals, c)).min().unwrap();
        line("or more: a capital stored, each of A..Z".into(), least, 1);
        for (name, from, to) in [
            ("profile's unused limits", 1, SETS),
            ("unused set", 1, SETS),
            ("node ID's unused octet", 0, NODE_ID),
            ("APN's unused octet", 1, APN),
            ("unused place", 0, PLACES),
            ("free slot's APN octet", 0, APN),
            ("free slot's place", 0, PLACES),
            ("free slot's IMSI octet", 0, 8),
            ("free slot's QoS octet", 0, 5),
            ("free place's IMSI octet", 0, 8),
            ("free place's change", 0, CHANGES),
            ("unused change", 0, CHANGES),
        ] {
            let least = (from..to).map(|at| of(&self.octets, (name, at))).min().unwrap();
            line(format!("or more: {name} not zero, each of {from}..{}", to - 1), least, 1);
        }
        lines.extend(self.batches.lines());
        lines
    }

    pub fn table(&self) -> String {
        self.lines().iter().map(|(name, met, _)| format!("{met:>7}  {name}\n")).collect()
    }

    pub fn missed(&self) -> Vec<String> {
        let lines = self.lines().into_iter().filter(|(_, met, least)| met < least);
        lines.map(|(name, met, least)| format!("{name}: {met}, not {least}")).collect()
    }
}

impl Batches {
    fn add(&mut self, node: &Stored, batch: &Batch, answer: u8, done: Option<&Batched>) {
        self.all += 1;
        *self.answers.entry(answer).or_default() += 1;
        let rules: BTreeSet<usize> = broken(node).iter().map(|part| part.0).collect();
        for rule in rules {
            *self.rules.entry(RULES[rule].name).or_default() += 1;
        }
        let odd = batch.volumes.len() % 2 != 0;
        let mut met = |name, when| *self.met.entry(name).or_default() += usize::from(when);
        let Some(done) = done else {
            met("13 for an empty list", batch.volumes.is_empty());
            met("13 for a list of odd length", odd);
            met("13 for pairs", !batch.volumes.is_empty() && !odd);
            return;
        };
        let full = node.accepted == MOST_ACCEPTED;
        let pair_refused = full || pair_refused(&node.view(), batch.time, batch.name);
        let empty = batch.volumes.is_empty();
        met("an empty list on a sound node", empty);
        met("an empty list whose name or time a pair would be refused for", empty && pair_refused);
        met("14 where a pair would be refused with 6, 7 or 8", odd && pair_refused);
        met("7 in the middle", answer == 7 && done.applied > 0);
        met("7 at the first pair", answer == 7 && done.applied == 0);
        met("11 in the middle", answer == 11 && done.applied > 0);
        met("11 with records kept", answer == 11 && !done.records.is_empty());
        met("several records", done.records.len() > 1);
        let several = |r: &Cdr| r.s().is_some_and(|r| r.containers.len() > 1);
        met("a record of several containers", done.records.iter().any(several));
        let last = !full && done.node.accepted == MOST_ACCEPTED;
        met("the last event that may be accepted", last);
        for limit in LIMITS.iter().filter(|limit| (limit.at)(node)) {
            *self.limits.entry(limit.name).or_default() += 1;
        }
    }

    fn lines(&self) -> Vec<(String, usize, usize)> {
        let mut lines = vec![("batches".into(), self.all, BATCHES)];
        for rule in RULES {
            let met = of(&self.rules, rule.name);
            lines.push((format!("batches on a node that breaks {}", rule.name), met, BATCH_TIMES));
        }
        for limit in LIMITS {
            let met = of(&self.limits, limit.name);
            lines.push((format!("batches on a sound node, with {}", limit.name), met, TIMES / 2));
        }
        for answer in BATCH_ANSWERS {
            let met = of(&self.answers, answer);
            lines.push((format!("batches with answer {answer}"), met, TIMES / 2));
        }
        for name in BATCH_MET {
            lines.push((format!("batches: {name}"), of(&self.met, name), TIMES / 2));
        }
        lines
    }
}
