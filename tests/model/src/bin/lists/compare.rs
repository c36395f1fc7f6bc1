//! The lines of a program against those that are expected, line by line.

use crate::cases::Case;
use charging_model::calls::hex;

/// How many octets of a list are shown.
const SHOWN: usize = 64;

/// The lines of an output, each with its line feed, the last one too.
fn lines(octets: &[u8]) -> Vec<&[u8]> {
    octets.split_inclusive(|c| *c == b'\n').collect()
}

/// A line for a reader: in quotes where it is odd.
fn shown(line: Option<&[u8]>) -> String {
    let Some(line) = line else { return "(no line)".into() };
    let text = String::from_utf8_lossy(&line[..line.len().min(200)]).into_owned();
    match text.strip_suffix('\n') {
        Some(plain) if plain.chars().all(|c| (' '..='~').contains(&c)) => plain.into(),
        _ => format!("{text:?}"),
    }
}

fn in_words(case: &Case) -> String {
    let [a, b, c, d] = case.name.ggsn;
    let first = &case.list[..case.list.len().min(SHOWN)];
    let more = if first.len() < case.list.len() { " .." } else { "" };
    format!(
        "  name      ID {}, GGSN {a}.{b}.{c}.{d}\n  window    {}\n  list      {} octets: {}{more}",
        case.name.charging_id,
        case.window,
        case.list.len(),
        hex(first)
    )
}

/// Shows the first difference, and counts them all.
pub fn compare(seed: &str, cases: &[Case], expected: &[u8], found: &[u8]) -> bool {
    let (expected, found) = (lines(expected), lines(found));
    if expected.len() != cases.len() {
        println!("{} cases, but {} lines are expected", cases.len(), expected.len());
        println!("0 passed, 1 failed");
        return false;
    }
    let differs = |at: &usize| found.get(*at) != Some(&expected[*at]);
    let differing: Vec<usize> = (0..cases.len()).filter(differs).collect();
    if let Some(at) = differing.first() {
        println!("seed {seed}, case {} of {}: the lines differ", at + 1, cases.len());
        println!("{}", in_words(&cases[*at]));
        println!("  expected  {}", shown(Some(expected[*at])));
        println!("  found     {}", shown(found.get(*at).copied()));
    }
    let more = found.len().saturating_sub(cases.len());
    if more > 0 {
        println!("{} cases, but {} lines", cases.len(), found.len());
    }
    println!("{} passed, {} failed", cases.len() - differing.len(), differing.len() + more);
    differing.is_empty() && more == 0
}
