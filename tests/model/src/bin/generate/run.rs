//! A run: its node, its calls, and how a call is added to it. The model runs
//! beside, so that later calls can aim at what the node holds.

use crate::profiles::profile;
use charging_model::batch::{self, Batch};
use charging_model::clock::LAST_SECOND;
use charging_model::event::{self, octets, Name, What};
use charging_model::node::Node;
use charging_model::random::Random;
use charging_model::subscriber::Imsi;
use charging_model::{calls, step};
use std::path::Path;

/// The largest room of a call.
pub const ROOM: usize = 20_000;
/// The most numbers of a batch.
pub const NUMBERS: usize = 1_000;

/// How the time of a run goes on.
#[derive(Clone, Copy, PartialEq)]
pub enum Pace {
    /// From 0, by a few seconds.
    Slow,
    /// From any day, by seconds, sometimes over a limit.
    Anywhere,
    /// Through the whole calendar, from one edge of a day to another.
    Calendar,
    /// Near the end of 2099.
    End,
}

/// A run, as far as it is made.
pub struct Run {
    pub random: Random,
    pub node: Node,
    pub pace: Pace,
    pub calls: Vec<u8>,
    /// How many events, and how many there are to be; and how many batches.
    pub count: usize,
    pub most: usize,
    pub batches: usize,
    /// The set that all activations name for now.
    pub only_set: Option<u8>,
    /// Names released in this run, and IMSIs detached.
    pub released: Vec<Name>,
    pub detached: Vec<Imsi>,
}

impl Run {
    pub fn new(seed: u64, run: usize, most: usize) -> Run {
        let mut random = Random::new(seed.wrapping_mul(100_003).wrapping_add(run as u64));
        let profile = profile(&mut random, run);
        let pace = match run % 6 {
            0 => Pace::Slow,
            1 | 3 => Pace::Anywhere,
            2 | 4 => Pace::Calendar,
            _ => Pace::End,
        };
        Run {
            random,
            node: Node::fresh(profile),
            pace,
            calls: Vec::new(),
            count: 0,
            most,
            batches: 0,
            only_set: None,
            released: Vec::new(),
            detached: Vec::new(),
        }
    }

    pub fn full(&self) -> bool {
        self.count >= self.most
    }

    pub fn call(&mut self, event: &[u8], room: usize) -> u8 {
        if self.full() {
            return 255;
        }
        assert!(event.len() <= 300 && room <= ROOM);
        self.count += 1;
        calls::append(&mut self.calls, room, event);
        let before = (self.node.active(), self.node.attached());
        let done = step::step(&self.node, event, room);
        if done.answer == 0 && done.node.active() < before.0 {
            self.released.push(event::name(event));
        }
        if done.answer == 0 && done.node.attached() < before.1 {
            self.detached.push(event::subscriber(event));
        }
        self.node = done.node;
        done.answer
    }

    /// A batch: its answer, and how many pairs were applied.
    pub fn call_batch(&mut self, reports: &Batch, room: usize) -> (u8, usize) {
        if self.full() {
            return (255, 0);
        }
        assert!(reports.volumes.len() <= NUMBERS && room <= ROOM);
        self.batches += 1;
        calls::append_batch(&mut self.calls, room, reports);
        let done = batch::batch(&self.node, reports, room);
        self.node = done.node;
        (done.answer, done.applied)
    }

    /// The event with a room that fits, is exact, or is too small first.
    pub fn send(&mut self, event: &[u8]) -> u8 {
        let done = step::step(&self.node, event, ROOM);
        let needed = done.output.len();
        if needed == 0 {
            let room = if self.random.percent(20) { 0 } else { self.random.sized(ROOM as u64) };
            return self.call(event, room as usize);
        }
        if self.random.percent(25) {
            let first = done.records[..1].to_vec();
            let first = step::output(&first).len();
            let short = match self.random.below(6) {
                0 => 0,
                1 => first.min(needed - 1),
                2 => self.random.below(needed as u64) as usize,
                3 => needed - 2,
                _ => needed - 1,
            };
            self.call(event, short);
        }
        let room = match self.random.below(3) {
            0 => needed,
            1 => self.random.between(needed as u64, ROOM as u64) as usize,
            _ => ROOM,
        };
        self.call(event, room)
    }

    pub fn say(&mut self, what: What) -> u8 {
        let time = self.time();
        self.send(&octets(time, &what))
    }

    pub fn say_at(&mut self, time: u32, what: What) -> u8 {
        self.send(&octets(time.max(self.node.clock).min(LAST_SECOND), &what))
    }

    pub fn write(&self, folder: &Path, name: &str) -> std::io::Result<()> {
        std::fs::write(folder.join(format!("{name}.profile")), self.node.profile.text())?;
        std::fs::write(folder.join(format!("{name}.calls")), &self.calls)
    }
}
