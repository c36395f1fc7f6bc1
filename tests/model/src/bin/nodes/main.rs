//! Nodes made on purpose: sound ones, and ones that break a rule of "A sound
//! node". They are handed to the C library, and what it answers is compared
//! with the rules. tests/nodes/README.md says more.
//!
//! nodes make SEED ROUNDS CASES: writes a file of cases.
//! nodes compare CASES RESULTS: what the library did against the rules.
//! nodes faults CASES RESULTS EVERY: the same with faults planted, each Nth.
//! nodes shows CASES RESULTS: the first case that differs, of a faulty model.
//! nodes play CASES RESULTS: writes the results of a library that keeps the
//! rules, to try the rest without one.

mod batches;
mod break_profile;
mod break_subscribers;
mod breaks;
mod cases;
mod counts;
mod expected;
mod faults;
mod limits;
mod limits_of_sets;
mod outcomes;
mod runs;
mod sound;
mod sound_limits;
mod sound_subscribers;
mod stored;
mod unseen;

use crate::breaks::{Breaker, BREAKERS};
use crate::cases::{put_case, put_result, Case, File, Lent, Outcome, GUARD};
use crate::counts::Counts;
use crate::expected::{done, expected};
use crate::limits::LIMITS;
use crate::sound::{broken, is_sound, RULES};
use crate::stored::{field_at, Stored, OCTETS};
use charging_model::batch::Batch;
use charging_model::calls::hex;
use charging_model::node::Node;
use charging_model::random::Random;
use std::panic::{catch_unwind, set_hook, RefUnwindSafe};
use std::process::ExitCode;

/// Octets of the results that are changed, one at a time.
const SPOILT: usize = 16;

// ---- making cases ----

/// Runs of events a round, and pairs of breaks.
const RUNS: usize = 4;
const PAIRS: usize = 30;
/// Activations a round with any octet in their APN.
const SPELLINGS: usize = 3;
/// Batches a round on nodes that were reached, on ones whose events run out,
/// and with several closings; one limit of so many, and one break of so many,
/// has a batch too.
const BATCHES: usize = 5;
const RUN_OUT: usize = 3;
const CLOSINGS: usize = 3;
const LIMIT_OF: usize = 2;
const BREAK_OF: usize = 10;
/// Nodes that breaks and limits begin from: those of the last runs.
const POOL: usize = 1200;

struct Maker {
    random: Random,
    pool: Vec<Stored>,
    file: Vec<u8>,
}

impl Maker {
    /// A case of a node; the room follows from the output of a sound one.
    fn put(&mut self, node: Stored, lent: Lent) {
        let random = &mut self.random;
        let room = match (is_sound(&node), &lent) {
            (true, Lent::Event(event)) => runs::room(random, &node.view(), event),
            (true, Lent::Batch(batch)) => batches::room(random, &node.view(), batch),
            (false, _) => random.pick(&[0, 1, 113, 1024, runs::ROOM]),
        };
        let fill = random.octet();
        put_case(&mut self.file, &Case { node, lent, room, fill });
    }

    fn any(&mut self) -> Stored {
        self.pool[self.random.below(self.pool.len() as u64) as usize].clone()
    }

    fn reached(&mut self) {
        for _ in 0..RUNS {
            for node in runs::run(&mut self.random) {
                let stored = Stored::store(&node);
                assert!(is_sound(&stored));
                let event = runs::event(&mut self.random, &node);
                self.put(stored.clone(), Lent::Event(event));
                self.pool.push(stored);
            }
        }
        self.pool.drain(..self.pool.len().saturating_sub(POOL));
    }

    fn at_limits(&mut self) {
        for limit in LIMITS {
            let (node, event) = (0..10_000)
                .find_map(|_| {
                    let mut node = self.any();
                    let event = (limit.reach)(&mut node, &mut self.random)?;
                    Some((node, event))
                })
                .unwrap_or_else(|| panic!("no node comes to {}", limit.name));
            assert!(is_sound(&node) && (limit.at)(&node), "{}", limit.name);
            self.put(node, Lent::Event(event));
        }
    }

    fn spelled(&mut self) {
        for _ in 0..SPELLINGS {
            let node = self.any();
            let event = runs::spelling(&mut self.random, &node.view());
            self.put(node, Lent::Event(event));
        }
    }

    /// A node that breaks a rule this way, and the node before.
    fn break_by(&mut self, breaker: &Breaker) -> (Stored, Stored) {
        let (before, node) = (0..10_000)
            .find_map(|_| {
                let before = self.any();
                let mut node = before.clone();
                (breaker.apply)(&mut node, &mut self.random)?;
                Some((before, node))
            })
            .unwrap_or_else(|| panic!("no node breaks {}: {}", breaker.rule, breaker.part));
        let found = broken(&node);
        let aim = |(rule, part): &(usize, &str)| {
            RULES[*rule].name == breaker.rule && *part == breaker.part
        };
        assert!(found.iter().any(aim), "{}: {} is kept", breaker.rule, breaker.part);
        (before, node)
    }

    fn broken_once(&mut self) {
        for breaker in BREAKERS {
            let (before, node) = self.break_by(breaker);
            let event = runs::event(&mut self.random, &before.view());
            self.put(node, Lent::Event(event));
        }
    }

    /// The second break may undo the first, and may find no place.
    fn broken_twice(&mut self) {
        for _ in 0..PAIRS {
            let before = self.any();
            let mut node = before.clone();
            let mut broken = 0;
            while broken < 2 {
                let breaker = &BREAKERS[self.random.below(BREAKERS.len() as u64) as usize];
                let mut next = node.clone();
                if (breaker.apply)(&mut next, &mut self.random).is_some() {
                    node = next;
                    broken += 1;
                }
            }
            let event = runs::event(&mut self.random, &before.view());
            self.put(node, Lent::Event(event));
        }
    }

    /// A batch on a node that is brought somewhere; most can be.
    fn batch_at(&mut self, bring: impl Fn(&mut Stored, &mut Random) -> Option<Batch>) {
        let found = (0..10_000).find_map(|_| {
            let mut node = self.any();
            let batch = bring(&mut node, &mut self.random)?;
            Some((node, batch))
        });
        let (node, batch) = found.expect("a node that can be brought there");
        assert!(is_sound(&node));
        self.put(node, Lent::Batch(batch));
    }

    fn batches(&mut self, round: usize) {
        for _ in 0..BATCHES {
            self.batch_at(|node, random| Some(batches::batch(random, &node.view())));
        }
        for _ in 0..RUN_OUT {
            self.batch_at(batches::events_run_out);
        }
        for _ in 0..CLOSINGS {
            self.batch_at(batches::closings);
        }
        for limit in (round % LIMIT_OF..LIMITS.len()).step_by(LIMIT_OF) {
            self.batch_at(|node, random| batches::at_limit(node, random, limit));
        }
        for breaker in BREAKERS.iter().skip(round % BREAK_OF).step_by(BREAK_OF) {
            let (before, node) = self.break_by(breaker);
            let batch = batches::batch(&mut self.random, &before.view());
            self.put(node, Lent::Batch(batch));
        }
    }

    /// Whatever octets.
    fn garbage(&mut self, round: usize) {
        let mut octets = [0; OCTETS];
        let all = match round % 4 {
            0 => 0,
            1 => 0xFF,
            _ => self.random.octet(),
        };
        for octet in &mut octets {
            *octet = if round % 4 == 3 { self.random.octet() } else { all };
        }
        let fresh = Node::fresh(runs::profile(&mut Random::new(1)));
        let event = runs::event(&mut self.random, &fresh);
        self.put(Stored::of_octets(&octets), Lent::Event(event));
        let batch = batches::batch(&mut self.random, &fresh);
        self.put(Stored::of_octets(&octets), Lent::Batch(batch));
    }
}

fn make(seed: u64, rounds: usize) -> Vec<u8> {
    let mut maker = Maker { random: Random::new(seed), pool: Vec::new(), file: Vec::new() };
    // so many that there is one of each sort
    for _ in 0..40 {
        maker.reached();
    }
    for round in 0..rounds {
        maker.reached();
        maker.spelled();
        maker.at_limits();
        maker.broken_once();
        maker.broken_twice();
        maker.batches(round);
        maker.garbage(round);
    }
    maker.file
}

// ---- comparing ----

fn differ(one: &[u8], other: &[u8]) -> Option<usize> {
    (0..one.len()).find(|at| one[*at] != other[*at])
}

/// What differs, in words.
fn difference(expected: &Outcome, found: &Outcome) -> String {
    if (expected.answer, expected.written) != (found.answer, found.written) {
        return format!(
            "answer {} and {} octets by the rules, {} and {} by the library",
            expected.answer, expected.written, found.answer, found.written
        );
    }
    if expected.applied != found.applied {
        return format!(
            "answer {}, and {} pairs applied by the rules, {} by the library",
            found.answer, expected.applied, found.applied
        );
    }
    if let Some(at) = differ(&expected.node, &found.node) {
        return format!(
            "answer {}, and the node differs in {}: {:02X} by the rules, {:02X} by the library",
            found.answer,
            field_at(at),
            expected.node[at],
            found.node[at]
        );
    }
    let at = differ(&expected.area, &found.area).unwrap();
    format!(
        "answer {}, and the buffer differs at {}: {:02X} by the rules, {:02X} by the library",
        found.answer,
        at as i64 - GUARD as i64,
        expected.area[at],
        found.area[at]
    )
}

fn in_words(case: &Case) -> String {
    let broken = broken(&case.node);
    let rules: Vec<String> =
        broken.iter().map(|(rule, part)| format!("{} ({part})", RULES[*rule].name)).collect();
    let lent = match &case.lent {
        Lent::Event(event) => format!("event  {}", hex(event)),
        Lent::Batch(Batch { time, name, volumes }) => {
            format!("batch  {volumes:?} at {time}, name {:08X} {:?}", name.charging_id, name.ggsn)
        }
    };
    format!(
        "  node   clock {}, {} events accepted, {} contexts, {} subscribers; breaks: {}\n  \
         {lent}\n  room   {}",
        case.node.clock,
        case.node.accepted,
        case.node.active().count(),
        case.node.attached().count(),
        if rules.is_empty() { "nothing".into() } else { rules.join(", ") },
        case.room
    )
}

fn compare(cases: &[u8], results: &[u8]) -> bool {
    let (mut cases, mut results) = (File(cases), File(results));
    let mut counts = Counts::default();
    let (mut same, mut differing) = (0, 0);
    while !cases.is_empty() {
        let case = cases.case().expect("a file of cases");
        let Some(found) = results.result(&case) else {
            println!("case {}: no result", counts.cases + 1);
            differing += 1;
            break;
        };
        let expected = expected(&case);
        let sound = is_sound(&case.node);
        let done = sound.then(|| done(&case));
        counts.add(&case, expected.answer, done.as_ref());
        if expected == found {
            same += 1;
            continue;
        }
        differing += 1;
        if differing == 1 {
            println!("case {}: {}", counts.cases, difference(&expected, &found));
            println!("{}", in_words(&case));
        }
    }
    if differing == 0 && !results.is_empty() {
        println!("more results than cases");
        differing += 1;
    }
    if differing > 0 {
        println!("{same} passed, {differing} failed");
        return false;
    }
    print!("{}", counts.table());
    let missed = counts.missed();
    for what in &missed {
        println!("not met: {what}");
    }
    println!("{same} passed, {} failed", missed.len());
    missed.is_empty()
}

/// The first case that differs from what the rules, or faulty ones, make of it.
fn shows(
    cases: &[u8],
    results: &[u8],
    expected: impl Fn(&Case) -> Option<Outcome>,
) -> Option<(usize, String)> {
    let (mut cases, mut results) = (File(cases), File(results));
    let mut number = 0;
    while !cases.is_empty() {
        number += 1;
        let case = cases.case().expect("a file of cases");
        let Some(found) = results.result(&case) else { return Some((number, "no result".into())) };
        let Some(expected) = expected(&case) else { continue };
        if expected != found {
            return Some((number, difference(&expected, &found)));
        }
    }
    (!results.is_empty()).then(|| (number, "more results than cases".into()))
}

/// A faulty model may stop at an unsound node; that shows nothing.
fn unless_stopped(
    expected: impl Fn(&Case) -> Outcome + RefUnwindSafe,
) -> impl Fn(&Case) -> Option<Outcome> {
    set_hook(Box::new(|_| {}));
    move |case| catch_unwind(|| expected(case)).ok()
}

fn shown(shown: &Option<(usize, String)>) -> String {
    match shown {
        Some((number, what)) => format!("case {number}, {what}"),
        None => "no case shows it".into(),
    }
}

/// Results that are spoilt: an octet changed here and there, one too few, one
/// too many.
fn spoilt(results: &[u8]) -> Vec<(String, Vec<u8>)> {
    let mut all = Vec::new();
    for part in 0..SPOILT {
        let at = results.len() / SPOILT * part;
        let mut changed = results.to_vec();
        changed[at] ^= 1 << (part % 8);
        all.push((format!("results with octet {at} changed"), changed));
    }
    all.push(("results without the last octet".into(), results[..results.len() - 1].to_vec()));
    all.push(("results with an octet more".into(), [results, &[0]].concat()));
    all
}

fn plant(cases: &[u8], results: &[u8], every: usize) -> bool {
    let (mut passed, mut failed) = (0, 0);
    let mut say = |good: bool, what: String| {
        println!("{}  {what}", if good { "ok    " } else { "FAILED" });
        *(if good { &mut passed } else { &mut failed }) += 1;
    };
    let by_rules = |case: &Case| Some(expected(case));
    let none = shows(cases, results, by_rules);
    say(none.is_none(), format!("no fault: {}", shown(&none)));
    for (what, results) in spoilt(results) {
        let noticed = shows(cases, &results, by_rules);
        say(noticed.is_some(), format!("{what}: {}", shown(&noticed)));
    }
    let planted = faults::all();
    for (fault, name, what) in planted.iter().skip(every - 1).step_by(every) {
        let noticed = shows(cases, results, unless_stopped(|case| faults::faulty(case, *fault)));
        say(noticed.is_some(), format!("{name}: {what}: {}", shown(&noticed)));
    }
    println!("{passed} passed, {failed} failed");
    failed == 0
}

/// The results of a library that keeps the rules.
fn play(cases: &[u8]) -> Vec<u8> {
    let mut cases = File(cases);
    let mut results = Vec::new();
    while !cases.is_empty() {
        let case = cases.case().expect("a file of cases");
        put_result(&mut results, &case, &expected(&case));
    }
    results
}

fn main() -> ExitCode {
    let args: Vec<String> = std::env::args().skip(1).collect();
    let args: Vec<&str> = args.iter().map(String::as_str).collect();
    let read = |path: &str| std::fs::read(path).unwrap_or_else(|e| panic!("{path}: {e}"));
    let number = |text: &str| text.parse::<u64>().unwrap_or_else(|e| panic!("{text}: {e}"));
    let good = match args[..] {
        ["make", seed, rounds, cases] => {
            let made = make(number(seed), number(rounds) as usize);
            std::fs::write(cases, made).is_ok()
        }
        ["play", cases, results] => std::fs::write(results, play(&read(cases))).is_ok(),
        ["compare", cases, results] => compare(&read(cases), &read(results)),
        ["faults", cases, results, every] => {
            plant(&read(cases), &read(results), number(every).max(1) as usize)
        }
        ["shows", cases, results] => {
            let noticed = shows(&read(cases), &read(results), unless_stopped(expected));
            println!("{}", shown(&noticed));
            noticed.is_some()
        }
        _ => {
            eprintln!("usage: nodes make SEED ROUNDS CASES");
            eprintln!(
                "       nodes compare CASES RESULTS, or faults CASES RESULTS EVERY, shows, play .."
            );
            false
        }
    };
    ExitCode::from(u8::from(!good))
}
