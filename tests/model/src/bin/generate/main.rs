//! generate SEED COUNT DIR: writes DIR/000.profile, DIR/000.calls and so on,
//! altogether COUNT events of contexts and of subscribers, and a batch after
//! every few. The model runs beside
//! it, so that the generator can aim at limits, rooms and names.
//! generate numbers DIR: writes DIR/numbers.profile and DIR/numbers.calls, in
//! which one activation closes 32,776 records.

mod attached;
mod batches;
mod calendar;
mod edges;
mod events;
mod journeys;
mod movements;
mod names;
mod numbers;
mod parts;
mod profiles;
mod refused;
mod replaced;
mod run;
mod runs;
mod scenes;
mod sessions;
mod sets;
mod spellings;
mod times;

use crate::run::Run;
use std::path::Path;
use std::process::ExitCode;

const EVENTS_OF_A_RUN: usize = 2_500;

fn generate_numbers(folder: &Path) -> std::io::Result<()> {
    std::fs::create_dir_all(folder)?;
    let one = numbers::run();
    one.write(folder, "numbers")?;
    println!("{} calls in the run of numbers", one.count);
    Ok(())
}

fn generate(seed: u64, count: usize, folder: &Path) -> std::io::Result<()> {
    std::fs::create_dir_all(folder)?;
    let mut left = count;
    let mut run = 0;
    let mut batches = 0;
    while left > 0 {
        let most = left.min(EVENTS_OF_A_RUN);
        let mut one = Run::new(seed, run, most);
        one.fill_up(run);
        assert_eq!(one.count, most);
        one.write(folder, &format!("{run:03}"))?;
        left -= most;
        batches += one.batches;
        run += 1;
    }
    println!("{count} events and {batches} batches in {run} runs, seed {seed}");
    Ok(())
}

fn main() -> ExitCode {
    let args: Vec<String> = std::env::args().skip(1).collect();
    let args: Vec<&str> = args.iter().map(String::as_str).collect();
    let (done, folder) = match args[..] {
        ["numbers", folder] => (generate_numbers(Path::new(folder)), folder),
        [seed, count, folder] => match (seed.parse(), count.parse()) {
            (Ok(seed), Ok(count)) => (generate(seed, count, Path::new(folder)), folder),
            _ => return usage(),
        },
        _ => return usage(),
    };
    match done {
        Ok(()) => ExitCode::SUCCESS,
        Err(error) => {
            eprintln!("generate: {folder}: {error}");
            ExitCode::from(2)
        }
    }
}

fn usage() -> ExitCode {
    eprintln!("usage: generate SEED COUNT DIR, or generate numbers DIR");
    ExitCode::from(2)
}
