//! Faults that can be planted into the test of a sound node and into what a
//! call is expected to leave. The comparison must notice each. The rules know
//! of none: a fault is a rule left out, a bound moved, a rule that sees a node
//! with something changed, or an outcome that is changed afterwards.

use crate::cases::{Case, Lent, Outcome};
use crate::expected::outcome;
use crate::outcomes::{OF_BATCHES, OUTCOMES};
use crate::sound::{broken_by, Found, Range, Test, RANGES, RULES};
use crate::stored::{Context, Stored};
use crate::unseen::UNSEEN;

/// What a rule sees of a node under a fault.
pub type See = fn(&mut Stored);

/// What becomes of an outcome under a fault.
pub type Change = fn(&mut Outcome, &Case);

#[derive(Clone, Copy)]
pub enum Fault {
    /// A rule, or one part of it, is not looked at.
    Without(usize, Option<&'static str>),
    /// A range, by its place, goes from here to there.
    Moved(usize, i128, i128),
    /// The rule of this name, or every one, sees the node changed.
    Unseen(Option<&'static str>, See),
    /// The rule of this name has another test.
    Other(&'static str, Test),
    /// The outcome of an event is changed, or that of a batch.
    Changed(Change),
    OfBatch(Change),
}

/// What the faulty test and the faulty call make of a case.
pub fn faulty(case: &Case, fault: Fault) -> Outcome {
    let mut outcome = outcome(case, finds_sound(&case.node, fault));
    match (fault, &case.lent) {
        (Fault::Changed(change), Lent::Event(_)) => change(&mut outcome, case),
        (Fault::OfBatch(change), Lent::Batch(_)) => change(&mut outcome, case),
        _ => {}
    }
    outcome
}

fn finds_sound(node: &Stored, fault: Fault) -> bool {
    let by_all = || broken_by(node, RANGES, |rule| rule.test);
    match fault {
        Fault::Without(rule, part) => {
            by_all().iter().all(|broken| broken.0 == rule && part.map_or(true, |p| p == broken.1))
        }
        Fault::Moved(range, low, high) => {
            let mut ranges = RANGES;
            (ranges[range].2, ranges[range].3) = (low, high);
            broken_by(node, ranges, |rule| rule.test).is_empty()
        }
        Fault::Unseen(which, see) => {
            let mut seen = node.clone();
            see(&mut seen);
            let sees = |rule: &str| which.map_or(true, |which| which == rule);
            let of = |node: &Stored, seeing: bool| {
                let broken = broken_by(node, RANGES, |rule| rule.test);
                broken.iter().all(|broken| sees(RULES[broken.0].name) != seeing)
            };
            of(&seen, true) && of(node, false)
        }
        Fault::Other(name, test) => {
            broken_by(node, RANGES, |rule| if rule.name == name { test } else { rule.test })
                .is_empty()
        }
        Fault::Changed(_) | Fault::OfBatch(_) => by_all().is_empty(),
    }
}

/// Every fault with its name and what is wrong under it.
pub fn all() -> Vec<(Fault, String, String)> {
    let mut all = Vec::new();
    for (at, rule) in RULES.iter().enumerate() {
        all.push((
            Fault::Without(at, None),
            format!("without {}", rule.name),
            format!("a node may break \"{}\"", rule.words),
        ));
        for part in rule.parts.iter().filter(|_| rule.parts.len() > 1) {
            all.push((
                Fault::Without(at, Some(part)),
                format!("without {}: {part}", rule.name),
                format!("a node may break this part of \"{}\"", rule.words),
            ));
        }
    }
    for (at, (range, name, low, high)) in RANGES.into_iter().enumerate() {
        let moved = [(low - 1, high), (low + 1, high), (low, high - 1), (low, high + 1)];
        for (from, to) in moved.into_iter().filter(|(from, to)| can_show(range, *from, *to)) {
            let moved = Fault::Moved(at, from, to);
            all.push((moved, format!("{name} {from}..{to}"), format!("for {low}..{high}")));
        }
    }
    for (name, what, rule, see) in UNSEEN {
        all.push((Fault::Unseen(*rule, *see), name.to_string(), what.to_string()));
    }
    all.push((
        Fault::Other("names", names_of_neighbours),
        "names-of-neighbours".into(),
        "a name is compared with the one before it alone".into(),
    ));
    all.push((
        Fault::Other("IMSIs", imsis_of_neighbours),
        "imsis-of-neighbours".into(),
        "an IMSI is compared with the one before it alone".into(),
    ));
    for (name, what, change) in OUTCOMES {
        all.push((Fault::Changed(*change), name.to_string(), what.to_string()));
    }
    for (name, what, change) in OF_BATCHES {
        all.push((Fault::OfBatch(*change), name.to_string(), what.to_string()));
    }
    all
}

/// No stored field is below zero, and no edition above 65,535. A record's volume
/// limit or change limit of zero is met by what is counted, whatever that is.
fn can_show(range: Range, from: i128, to: i128) -> bool {
    let met = matches!(range, Range::RecordVolume | Range::RecordChanges);
    from >= i128::from(met) && !(range == Range::Edition && to > 65_535)
}

fn names_of_neighbours(node: &Stored, found: &mut Found) {
    let names: Vec<_> = node.active().map(Context::name).collect();
    found.unless("whole", names.windows(2).all(|pair| pair[0] != pair[1]));
}

fn imsis_of_neighbours(node: &Stored, found: &mut Found) {
    let imsis: Vec<_> = node.attached().map(|s| s.imsi).collect();
    found.unless("whole", imsis.windows(2).all(|pair| pair[0] != pair[1]));
}
