//! Sets of limits (02, W6): which set an event names, limits for a set, and
//! replacements one by one.

use crate::profiles::any_limits;
use crate::run::Run;
use charging_model::event::{self, Name, Start, What};
use charging_model::limits::{Limits, Set, MOST_CHANGES, MOST_TIME, MOST_VOLUME};
use charging_model::node::{Context, SLOTS};

impl Run {
    /// The context of an active name.
    pub fn context(&self, name: Name) -> &Context {
        self.node.slots[self.node.find(name).unwrap()].as_ref().unwrap()
    }

    /// A set that the node has, the first and the last more often.
    pub fn some_set(&mut self) -> u8 {
        let last = self.node.sets.len() as u64;
        match self.random.below(4) {
            0 => 1,
            1 => last as u8,
            _ => self.random.between(1, last) as u8,
        }
    }

    /// A set that the node does not have.
    pub fn unknown_set(&mut self) -> u8 {
        let after = self.node.sets.len() as u8 + 1;
        match self.random.below(4) {
            0 => 0,
            1 => after,
            2 => 255,
            _ => self.random.between(after.into(), 255) as u8,
        }
    }

    /// The set of a context more often than any.
    fn set_in_use(&mut self) -> u8 {
        match self.active_name() {
            Some(name) if self.random.percent(70) => self.context(name).start.set,
            _ => self.some_set(),
        }
    }

    /// A replacement of a set by its next edition; one of an unknown set has
    /// some edition.
    pub fn replacement(&mut self, set: u8, limits: Limits) -> What {
        let edition = self.node.set(set).map_or(2, |set| set.edition.wrapping_add(1));
        What::Replace(set, Set { edition, limits })
    }

    /// One limit is one lower or one higher.
    fn beside(&mut self, old: Limits) -> Limits {
        let mut limits = old;
        let down = self.random.percent(50);
        match self.random.below(3) {
            0 if down => limits.volume = old.volume.max(2) - 1,
            0 => limits.volume = (old.volume + 1).min(MOST_VOLUME),
            1 if down => limits.time = old.time.max(2) - 1,
            1 => limits.time = (old.time + 1).min(MOST_TIME),
            _ if down => limits.changes = old.changes.max(2) - 1,
            _ => limits.changes = (old.changes + 1).min(MOST_CHANGES),
        }
        limits
    }

    /// What an open record of a set has counted, or a little less: each limit
    /// is met already.
    fn counted(&mut self, set: u8) -> Option<Limits> {
        let open: Vec<&Context> =
            self.node.slots.iter().flatten().filter(|c| c.start.set == set).collect();
        let context = *open.get(self.random.below(SLOTS as u64) as usize % open.len().max(1))?;
        let volume = context.record_volume();
        let time = self.node.clock - context.opened;
        let changes = context.changes as u8;
        Some(Limits {
            volume: (volume - self.random.sized(volume)).max(1),
            time: time.clamp(1, MOST_TIME),
            changes: changes.max(1),
        })
    }

    /// The next limits of a set.
    pub fn next_limits(&mut self, set: u8) -> Limits {
        let old = self.node.limits_of(set);
        match self.random.below(10) {
            0 => old,
            1..=3 => self.beside(old),
            4 | 5 => self.counted(set).unwrap_or(old),
            6 => {
                let other = self.some_set();
                self.node.limits_of(other)
            }
            _ => any_limits(&mut self.random),
        }
    }

    /// A replacement that is taken.
    pub fn replace(&mut self) -> u8 {
        let set = self.set_in_use();
        let limits = self.next_limits(set);
        let what = self.replacement(set, limits);
        self.say(what)
    }

    /// The same by these limits, now.
    pub fn replace_by(&mut self, set: u8, limits: Limits) -> u8 {
        let what = self.replacement(set, limits);
        self.say_at(self.node.clock, what)
    }

    /// A context whose open record has these limits, of a set that has them;
    /// nothing where the run is full.
    pub fn newcomer_of(&mut self, set: u8, limits: Limits) -> Option<Name> {
        if self.node.active() == SLOTS {
            let name = self.active_name().unwrap();
            self.release(name);
        }
        self.replace_by(set, limits);
        let name = self.free_name();
        let start = Start { set, ..self.start() };
        self.say(What::Activate(name, Box::new(start)));
        self.node.find(name).map(|_| name)
    }

    /// An edition that is not the next one of a set.
    pub fn other_edition(&mut self, set: u8) -> u16 {
        let now = self.node.set(set).map_or(1, |set| set.edition);
        let next = now.wrapping_add(1);
        let edition = match self.random.below(8) {
            0 | 1 => now,
            2 | 3 => next.wrapping_add(1),
            4 => next.swap_bytes(),
            5 => next ^ 1 << self.random.between(8, 15),
            6 => self.random.pick(&[0, now.wrapping_sub(1), 2, 65_535]),
            _ => self.random.next() as u16,
        };
        if edition == next {
            now
        } else {
            edition
        }
    }

    /// A limit out of range, of each sort.
    pub fn limits_out_of_range(&mut self, mut limits: Limits) -> Limits {
        match self.random.below(6) {
            0 => limits.volume = 0,
            1 => {
                limits.volume = self.random.pick(&[
                    MOST_VOLUME + 1,
                    1 << 40,
                    1 << 63,
                    u64::MAX,
                    MOST_VOLUME * 2,
                ])
            }
            2 => limits.time = 0,
            3 => limits.time = self.random.pick(&[MOST_TIME + 1, 1 << 20, 1 << 31, u32::MAX]),
            4 => limits.changes = 0,
            _ => limits.changes = self.random.pick(&[16, 17, 32, 128, 255]),
        }
        limits
    }

    /// A set or an edition that is refused.
    pub fn spoil_set(&mut self, event: &mut [u8]) {
        match event::kind(event) {
            event::ACTIVATE => event[35] = self.unknown_set(),
            event::REPLACE if self.random.percent(40) => event[7] = self.unknown_set(),
            event::REPLACE => {
                let edition = self.other_edition(event::set(event));
                event[8..10].copy_from_slice(&edition.to_be_bytes());
            }
            _ => {}
        }
    }
}
