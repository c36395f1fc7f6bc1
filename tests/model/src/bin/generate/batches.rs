//! Batches: lists of reports for one context at one time.

use crate::run::{Run, NUMBERS, ROOM};
use charging_model::batch::{batch, Batch, Batched};
use charging_model::clock::LAST_SECOND;
use charging_model::event::{Name, What};
use charging_model::step::output;

impl Run {
    /// Some batch; most of them are for an active context and in time.
    pub fn some_batch(&mut self) {
        match self.random.below(100) {
            0..=11 => self.empty_batch(),
            12..=21 => self.odd_batch(),
            22..=26 => self.closing_last(),
            _ => self.reports(),
        }
    }

    /// "An empty list changes nothing", whatever the name and the time are.
    fn empty_batch(&mut self) {
        let (name, time) = (self.name_of_batch(50), self.time_of_batch(40));
        let room = self.random.pick(&[0, 1, ROOM]);
        self.call_batch(&Batch { time, name, volumes: Vec::new() }, room);
    }

    fn odd_batch(&mut self) {
        let (name, time) = (self.name_of_batch(25), self.time_of_batch(25));
        let pairs = match self.random.below(100) {
            0..=29 => 0,
            30 => NUMBERS / 2 - 1,
            _ => self.pairs().min(NUMBERS / 2 - 1),
        };
        let mut volumes = self.reports_of(name, pairs);
        volumes.push(self.random.sized(u32::MAX.into()) as u32);
        let room = self.random.pick(&[0, ROOM]);
        self.call_batch(&Batch { time, name, volumes }, room);
    }

    fn reports(&mut self) {
        let (name, time) = (self.name_of_batch(8), self.time_of_batch(8));
        let pairs = self.pairs();
        let volumes = self.reports_of(name, pairs);
        self.send_batch(Batch { time, name, volumes });
    }

    /// A few pairs of nothing, then one that closes the record where two
    /// volumes can.
    fn closing_last(&mut self) {
        let Some(name) = self.active_name() else { return };
        let time = self.time_of_batch(0);
        let left = self.volume_left(name);
        let most = u64::from(u32::MAX);
        let up = left.min(most);
        let mut volumes = vec![0; 2 * self.random.below(6) as usize];
        volumes.extend([up as u32, (left - up).min(most) as u32]);
        self.send_batch(Batch { time, name, volumes });
    }

    /// More records by one batch than there were events before it, where two
    /// volumes can meet the limit.
    pub fn early_batch(&mut self) {
        self.activate_now();
        let Some(name) = self.active_name() else { return };
        let most = u64::from(u32::MAX);
        let limit = self.context(name).limits.volume.min(2 * most);
        let up = self.random.between(limit.saturating_sub(most), limit.min(most));
        let pair = [up as u32, (limit - up) as u32];
        let volumes = pair.repeat(self.node.accepted as usize + 3);
        self.call_batch(&Batch { time: self.node.clock, name, volumes }, ROOM);
        self.say_at(self.node.clock, What::Management(name));
    }

    /// As many pairs as there may be, of so little that all are applied.
    pub fn longest_batch(&mut self) {
        let Some(name) = self.active_name() else { return };
        let time = self.time_of_batch(0);
        let part = self.volume_left(name) / NUMBERS as u64;
        let most = part.saturating_sub(1).min(u32::MAX.into());
        let volumes = (0..NUMBERS).map(|_| self.random.sized(most) as u32).collect();
        self.call_batch(&Batch { time, name, volumes }, 0);
    }

    /// How many pairs: few of the batches are long.
    fn pairs(&mut self) -> usize {
        match self.random.below(1000) {
            0 | 1 => NUMBERS / 2,
            2..=5 => self.random.between(100, NUMBERS as u64 / 2) as usize,
            6..=29 => self.random.between(10, 40) as usize,
            30..=399 => 1,
            _ => self.random.between(2, 6) as usize,
        }
    }

    /// Pairs that keep below the volume limit, meet it and pass it by turns:
    /// that of the open record, and then of the edition in force.
    fn reports_of(&mut self, name: Name, pairs: usize) -> Vec<u32> {
        let set = match self.node.find(name) {
            Some(_) => self.context(name).start.set,
            None => self.some_set(),
        };
        let limit = self.node.limits_of(set).volume;
        let mut left = match self.node.find(name) {
            Some(_) => self.volume_left(name),
            None => limit,
        };
        let mut volumes = Vec::new();
        for _ in 0..pairs {
            let (up, down) = self.volumes(left);
            let sum = u64::from(up) + u64::from(down);
            left = if sum < left { left - sum } else { limit };
            volumes.extend([up, down]);
        }
        volumes
    }

    /// A name that is not active in so many of a hundred, or where none is.
    fn name_of_batch(&mut self, wrong: u64) -> Name {
        match self.active_name() {
            Some(name) if !self.random.percent(wrong) => name,
            _ => self.free_name(),
        }
    }

    /// A time that is mostly refused in so many of a hundred. The others go on
    /// by little, so that the calendar lasts.
    fn time_of_batch(&mut self, wrong: u64) -> u32 {
        if self.random.percent(wrong) {
            return self.bad_time();
        }
        let left = LAST_SECOND - self.node.clock;
        match self.random.below(10) {
            0..=4 => self.node.clock,
            5..=8 => self.node.clock + (self.random.sized(60) as u32).min(left),
            _ => self.time(),
        }
    }

    /// The batch with a room that is exact, more, or ends at some record; what
    /// was refused for room may come again, and the record be closed.
    pub fn send_batch(&mut self, mut reports: Batch) {
        let done = batch(&self.node, &reports, ROOM);
        let room = self.room_of_batch(&done);
        let (answer, applied) = self.call_batch(&reports, room);
        if answer == 11 && self.random.percent(50) {
            reports.volumes.drain(..2 * applied);
            self.call_batch(&reports, ROOM);
        }
        if self.node.find(reports.name).is_some() && self.random.percent(20) {
            self.say_at(self.node.clock, What::Management(reports.name));
        }
    }

    fn room_of_batch(&mut self, done: &Batched) -> usize {
        let needed = done.output.len();
        if needed == 0 {
            return self.random.pick(&[0, 1, ROOM]);
        }
        // so many records fit, and the next does not
        let fit = self.random.below(done.records.len() as u64) as usize;
        let before = output(&done.records[..fit]).len();
        let next = output(&done.records[fit..fit + 1]).len();
        match self.random.below(10) {
            0 => before,
            1 => before + next - 1,
            2 => before + self.random.below(next as u64) as usize,
            3 => needed - 1,
            4..=6 => needed,
            7 => self.random.between(needed as u64, ROOM as u64) as usize,
            _ => ROOM,
        }
    }
}
