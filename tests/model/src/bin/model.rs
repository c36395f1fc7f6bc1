//! model PROFILE CALLS: the lines that `calls` should write.

use charging_model::batch::batch;
use charging_model::calls::{self, Call, Lent};
use charging_model::{node::Node, profile::Profile, step::step};
use std::io::Write;
use std::process::ExitCode;

/// The node after a call, and the call's line.
fn answer(node: &Node, call: &Call) -> (Node, String) {
    match &call.what {
        Lent::Event(event) => {
            let done = step(node, event, call.room);
            let line = calls::line(done.answer, &done.output);
            (done.node, line)
        }
        Lent::Batch(reports) => {
            let done = batch(node, reports, call.room);
            let line = calls::batch_line(&done);
            (done.node, line)
        }
    }
}

fn run(profile: &str, file: &str) -> Result<(), String> {
    let text = std::fs::read(profile).map_err(|e| format!("{profile}: {e}"))?;
    let profile = Profile::read(&text).ok_or(format!("{profile}: not a profile"))?;
    let octets = std::fs::read(file).map_err(|e| format!("{file}: {e}"))?;
    let mut node = Node::fresh(profile);
    let mut out = std::io::BufWriter::new(std::io::stdout().lock());
    for call in calls::read(&octets)? {
        let (after, line) = answer(&node, &call);
        out.write_all(line.as_bytes()).map_err(|e| e.to_string())?;
        node = after;
    }
    out.flush().map_err(|e| e.to_string())
}

fn main() -> ExitCode {
    let args: Vec<String> = std::env::args().skip(1).collect();
    let args: Vec<&str> = args.iter().map(String::as_str).collect();
    let result = match args[..] {
        [profile, file] => run(profile, file),
        _ => Err("usage: model PROFILE CALLS".into()),
    };
    match result {
        Ok(()) => ExitCode::SUCCESS,
        Err(said) => {
            eprintln!("model: {said}");
            ExitCode::from(2)
        }
    }
}
