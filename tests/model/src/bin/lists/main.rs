//! Record lists whose records of a name are counted (02, W7). The cases and
//! their lines have the form of `testing counts`.
//!
//! lists make SEED COUNT CASES EXPECTED: writes cases and their lines, and says
//! what the cases meet.
//! lists compare SEED CASES EXPECTED FOUND: the lines that were found against
//! those that are expected.
//! lists count: cases from standard input, lines to standard output, by the
//! model, in turns where a case asks for them.

mod aims;
mod cases;
mod compare;
mod cuts;
mod fields;
mod garbage;
mod lengths;
mod made;
mod names;
mod parts;
mod records;
mod whole;

use crate::aims::Aims;
use crate::cases::{line, Case};
use charging_model::count::{count, in_turns, Count, Refused, STEP};
use charging_model::random::Random;
use std::io::{Read, Write};
use std::process::ExitCode;

/// What the model answers to a case.
fn counted(case: &Case) -> Result<Count, Refused> {
    match case.window < STEP {
        true => count(&case.list, case.name),
        false => in_turns(&case.list, case.name, case.window, |_| {}),
    }
}

/// The octets of the cases, their lines, and what they meet.
fn make(seed: u64, count_of_cases: usize) -> Result<(Vec<u8>, String, Aims), String> {
    let mut random = Random::new(seed);
    let (mut octets, mut lines, mut aims) = (Vec::new(), String::new(), Aims::default());
    for number in 1..=count_of_cases {
        let made = made::any(&mut random);
        let window = made::window(&mut random, &made);
        let case = Case { name: made.name, window, list: made.list.clone() };
        // whatever the window is
        let answer = count(&case.list, case.name);
        if made.known.is_some_and(|known| known != answer) {
            return Err(format!(
                "seed {seed}, case {number}, {}: {:?} by how it was made, {answer:?} by steps",
                made.sort, made.known
            ));
        }
        aims.count(&case, &made, &answer);
        case.put(&mut octets);
        lines += &line(&answer);
    }
    Ok((octets, lines, aims))
}

fn make_files(seed: &str, count: &str, cases: &str, expected: &str) -> Result<bool, String> {
    let number = |text: &str| text.parse::<u64>().map_err(|e| format!("{text}: {e}"));
    let (octets, lines, aims) = make(number(seed)?, number(count)? as usize)?;
    std::fs::write(cases, &octets).map_err(|e| format!("{cases}: {e}"))?;
    std::fs::write(expected, lines).map_err(|e| format!("{expected}: {e}"))?;
    print!("{}", aims.table());
    println!("{count} cases, {} octets", octets.len());
    let missed = aims.missed();
    for what in &missed {
        println!("not met by any case: {what}");
    }
    Ok(missed.is_empty())
}

fn compare_files(seed: &str, paths: [&str; 3]) -> Result<bool, String> {
    let read = |path: &str| std::fs::read(path).map_err(|e| format!("{path}: {e}"));
    let (cases, cut) = cases::read(&read(paths[0])?);
    if cut {
        return Err(format!("{}: the last case is cut short", paths[0]));
    }
    Ok(compare::compare(seed, &cases, &read(paths[1])?, &read(paths[2])?))
}

fn count_input() -> Result<bool, String> {
    let mut input = Vec::new();
    std::io::stdin().lock().read_to_end(&mut input).map_err(|e| e.to_string())?;
    let (cases, cut) = cases::read(&input);
    let lines: String = cases.iter().map(|case| line(&counted(case))).collect();
    std::io::stdout().lock().write_all(lines.as_bytes()).map_err(|e| e.to_string())?;
    if cut {
        eprintln!("counts: the last case is cut short");
    }
    Ok(true)
}

fn main() -> ExitCode {
    let args: Vec<String> = std::env::args().skip(1).collect();
    let args: Vec<&str> = args.iter().map(String::as_str).collect();
    let done = match args[..] {
        ["make", seed, count, cases, expected] => make_files(seed, count, cases, expected),
        ["compare", seed, cases, expected, found] => compare_files(seed, [cases, expected, found]),
        ["count"] => count_input(),
        _ => Err("usage: lists make SEED COUNT CASES EXPECTED, compare .. or count".into()),
    };
    match done {
        Ok(good) => ExitCode::from(u8::from(!good)),
        Err(said) => {
            eprintln!("lists: {said}");
            ExitCode::from(2)
        }
    }
}
