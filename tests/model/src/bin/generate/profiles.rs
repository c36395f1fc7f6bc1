//! The profiles of the runs.

use charging_model::limits::{Limits, MOST_CHANGES, MOST_TIME, MOST_VOLUME, SETS};
use charging_model::profile::Profile;
use charging_model::random::Random;

const OFFSETS: [i32; 15] = [0, -90, -720, 840, -1, 1, 59, 60, 61, -59, -60, -61, 839, -719, 330];
const NODE_IDS: [&str; 10] = [
    "",
    "~~~~~~~~~~~~~~~~~~~~",
    "N",
    "SGSN-1 Teheran",
    " a ",
    " ",
    "                    ",
    "node-id x",
    "0123456789012345678",
    "-90",
];

const VOLUMES: [u64; 8] = [2, 127, 128, 255, 256, 32768, 65536, MOST_VOLUME - 1];
const LONG_VOLUMES: [u64; 5] = [1 << 31, 1 << 32, (1 << 32) - 1, (1 << 33) - 2, (1 << 33) - 1];
const TIMES: [u32; 8] = [2, 59, 60, 61, 3600, 86_399, 86_400, 604_799];

/// The limits of a run's first set: they take their ends and the numbers around
/// them in turn.
fn first_limits(random: &mut Random, run: usize) -> Limits {
    let volume = match run % 7 {
        1 => MOST_VOLUME,
        2 => 1,
        3 => random.pick(&VOLUMES),
        4 => random.pick(&LONG_VOLUMES),
        _ => random.sized(MOST_VOLUME).max(1),
    };
    let time = match run % 5 {
        1 => MOST_TIME,
        2 => 1,
        3 => random.pick(&TIMES),
        _ => random.sized(MOST_TIME.into()).max(1) as u32,
    };
    let changes = match run % 4 {
        1 => MOST_CHANGES,
        2 => 1,
        _ => (run / 4 % 15 + 1) as u8,
    };
    Limits { volume, time, changes }
}

/// Any limits, their ends among them.
pub fn any_limits(random: &mut Random) -> Limits {
    let volume = match random.below(8) {
        0 => MOST_VOLUME,
        1 => 1,
        2 => random.pick(&VOLUMES),
        3 => random.pick(&LONG_VOLUMES),
        _ => random.sized(MOST_VOLUME).max(1),
    };
    let time = match random.below(6) {
        0 => MOST_TIME,
        1 => 1,
        2 => random.pick(&TIMES),
        _ => random.sized(MOST_TIME.into()).max(1) as u32,
    };
    let changes = match random.below(5) {
        0 => MOST_CHANGES,
        1 => 1,
        _ => random.between(1, MOST_CHANGES.into()) as u8,
    };
    Limits { volume, time, changes }
}

/// The profile of a run, with one to eight sets of limits by turns.
pub fn profile(random: &mut Random, run: usize) -> Profile {
    if run == 0 {
        // Document 01's session.
        return Profile {
            sgsn: [10, 0, 0, 1],
            limits: vec![Limits { volume: 1000, time: 60, changes: 2 }],
            offset: 0,
            node_id: Vec::new(),
        };
    }
    let mut limits = vec![first_limits(random, run)];
    for _ in 0..run % SETS {
        limits.push(any_limits(random));
    }
    let offset = match run % 20 {
        at if at < 15 => OFFSETS[at],
        _ => random.between(0, 1560) as i32 - 720,
    };
    let node_id = match run % 13 {
        at if at < 10 => NODE_IDS[at].as_bytes().to_vec(),
        _ => {
            let length = random.between(0, 20);
            (0..length).map(|_| random.between(0x20, 0x7E) as u8).collect()
        }
    };
    let sgsn = [random.octet(), random.octet(), random.octet(), random.octet()];
    Profile { sgsn, limits, offset, node_id }
}
