//! compare RUNS EXPECTED FOUND: the outputs EXPECTED/NNN.out and FOUND/NNN.out
//! of every run in RUNS, line by line. Then the table of what the calls met.

mod aims;
mod batches;
mod sets;
mod subscribers;

use crate::aims::Aims;
use charging_model::batch::batch;
use charging_model::calls::{self, hex, Call, Lent};
use charging_model::clock;
use charging_model::event::{self, Name};
use charging_model::node::Node;
use charging_model::profile::Profile;
use charging_model::step::step;
use std::path::Path;
use std::process::ExitCode;

/// The lines of an output, each with its line feed, the last one too.
fn lines(octets: &[u8]) -> Vec<&[u8]> {
    octets.split_inclusive(|c| *c == b'\n').collect()
}

/// A line for a reader: not too long, and in quotes if it is odd.
fn shown(line: Option<&[u8]>, around: usize) -> String {
    let Some(line) = line else { return "(no line)".into() };
    let plain =
        line.ends_with(b"\n") && line[..line.len() - 1].iter().all(|c| (32..127).contains(c));
    if !plain {
        return format!("{:?}", String::from_utf8_lossy(&line[..line.len().min(200)]));
    }
    let text = String::from_utf8_lossy(&line[..line.len() - 1]).into_owned();
    if text.len() <= 500 {
        return text;
    }
    let from = around.saturating_sub(60).min(text.len());
    let to = (around + 100).min(text.len());
    format!("{} .. (from character {from}) {} ..", &text[..20], &text[from..to])
}

fn time_in_words(time: u32) -> String {
    match time <= clock::LAST_SECOND {
        true => format!(" at {time} = {}", hex(&clock::time_stamp(time, 0)[..6])),
        false => format!(" at {time}"),
    }
}

fn name_in_words(name: Name) -> String {
    format!(", name {:08X} {:?}", name.charging_id, name.ggsn)
}

fn event_in_words(octets: &[u8]) -> String {
    if octets.len() < event::HEAD {
        return "under 7 octets".into();
    }
    let kinds = [
        "?",
        "activate",
        "traffic",
        "QoS",
        "tariff",
        "release",
        "tick",
        "management",
        "attach",
        "location change",
        "management of a subscriber",
        "detach",
        "replacement",
    ];
    let kind = event::kind(octets);
    let mut words = format!("{} ({kind})", kinds.get(usize::from(kind)).unwrap_or(&"?"));
    words += &time_in_words(event::time(octets));
    if event::has_name(kind) && octets.len() >= 15 {
        words += &name_in_words(event::name(octets));
    }
    if event::of_subscriber(kind) && octets.len() >= 15 {
        words += &format!(", IMSI {}", hex(&event::subscriber(octets)));
    }
    if event::has_set(kind) && event::whole_length(octets) == Some(octets.len()) {
        words += &format!(", set {}", event::set(octets));
    }
    if kind == event::REPLACE && octets.len() >= 10 {
        words += &format!(", edition {}", event::edition(octets));
    }
    words
}

/// How many pairs of a batch are shown.
const PAIRS_SHOWN: usize = 12;

/// The pairs of a list: `uplink+downlink`, and the number that has no other.
fn pairs_in_words(volumes: &[u32]) -> String {
    let pair = |pair: &[u32]| pair.iter().map(u32::to_string).collect::<Vec<_>>().join("+");
    let mut pairs: Vec<String> = volumes.chunks(2).take(PAIRS_SHOWN).map(pair).collect();
    let more = volumes.len().saturating_sub(2 * PAIRS_SHOWN);
    if more > 0 {
        pairs.push(format!("and {more} numbers more"));
    }
    if pairs.is_empty() {
        "(an empty list)".into()
    } else {
        pairs.join(", ")
    }
}

/// A call for a reader, in two lines.
fn call_in_words(call: &Call) -> String {
    let room = call.room;
    match &call.what {
        Lent::Event(event) => format!(
            "  event    {}\n           {} octets, room {room}: {}",
            hex(event),
            event.len(),
            event_in_words(event)
        ),
        Lent::Batch(batch) => format!(
            "  batch    {}\n           {} numbers, room {room}: traffic{}{}",
            pairs_in_words(&batch.volumes),
            batch.volumes.len(),
            time_in_words(batch.time),
            name_in_words(batch.name)
        ),
    }
}

/// The node after a call; what the call meets is counted.
fn follow(node: &Node, call: &Call, aims: &mut Aims) -> Node {
    match &call.what {
        Lent::Event(event) => {
            let done = step(node, event, call.room);
            aims.count(node, event, call.room, &done);
            done.node
        }
        Lent::Batch(reports) => {
            let done = batch(node, reports, call.room);
            aims.count_batch(node, reports, call.room, &done);
            done.node
        }
    }
}

fn compare(runs: &Path, expected: &Path, found: &Path) -> Result<bool, String> {
    let read = |path: &Path| std::fs::read(path).map_err(|e| format!("{}: {e}", path.display()));
    let entries = std::fs::read_dir(runs).map_err(|e| format!("{}: {e}", runs.display()))?;
    let mut names: Vec<String> = entries
        .filter_map(|entry| entry.ok()?.file_name().into_string().ok())
        .filter_map(|name| name.strip_suffix(".calls").map(str::to_string))
        .collect();
    names.sort();
    let mut aims = Aims::default();
    let (mut same, mut differing) = (0, 0);
    for name in &names {
        let profile = read(&runs.join(format!("{name}.profile")))?;
        let profile = Profile::read(&profile).ok_or(format!("{name}.profile: not a profile"))?;
        let octets = read(&runs.join(format!("{name}.calls")))?;
        let made = calls::read(&octets)?;
        let model = read(&expected.join(format!("{name}.out")))?;
        // A program that has stopped wrote no lines.
        let other = read(&found.join(format!("{name}.out"))).unwrap_or_default();
        let (model, other) = (lines(&model), lines(&other));
        if model.len() != made.len() {
            return Err(format!(
                "run {name}: {} calls, but {} lines of the model",
                made.len(),
                model.len()
            ));
        }
        aims.new_run();
        let mut node = Node::fresh(profile);
        for (at, call) in made.iter().enumerate() {
            let after = follow(&node, call, &mut aims);
            let (one, two) = (model[at], other.get(at).copied());
            if Some(one) == two {
                same += 1;
            } else {
                differing += 1;
                if differing == 1 {
                    let two_octets = two.unwrap_or(&[]);
                    let first = one.iter().zip(two_octets).take_while(|(a, b)| a == b).count();
                    println!("run {name}, call {} of {}: the outputs differ", at + 1, made.len());
                    println!("{}", call_in_words(call));
                    println!(
                        "  node     clock {}, {} contexts, {} subscribers, {} events accepted",
                        node.clock,
                        node.active(),
                        node.attached(),
                        node.accepted
                    );
                    println!("  model    {}", shown(Some(one), first));
                    println!("  program  {}", shown(two, first));
                    println!("  first difference at character {} of the line", first + 1);
                }
            }
            node = after;
        }
        if other.len() > made.len() {
            differing += other.len() - made.len();
            println!("run {name}: {} calls, but {} lines of the program", made.len(), other.len());
        }
    }
    if differing > 0 {
        println!(
            "{differing} lines differ in all; those after the first in a run may follow from it"
        );
        println!("{same} passed, {differing} failed");
        return Ok(false);
    }
    print!("{}", aims.table());
    let missed = aims.missed();
    for what in &missed {
        println!("not met by any call: {what}");
    }
    println!("{same} passed, {} failed", missed.len());
    Ok(missed.is_empty() && same > 0)
}

fn main() -> ExitCode {
    let args: Vec<String> = std::env::args().skip(1).collect();
    let [runs, expected, found] = &args[..] else {
        eprintln!("usage: compare RUNS EXPECTED FOUND");
        return ExitCode::from(2);
    };
    match compare(Path::new(runs), Path::new(expected), Path::new(found)) {
        Ok(true) => ExitCode::SUCCESS,
        Ok(false) => ExitCode::from(1),
        Err(said) => {
            println!("compare: {said}");
            println!("0 passed, 1 failed");
            ExitCode::from(1)
        }
    }
}
