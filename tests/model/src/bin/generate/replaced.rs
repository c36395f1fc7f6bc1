//! Scenes in which a set of limits is replaced while records are open: they
//! keep "the limits it opened with", and the next ones take the new.

use crate::profiles::any_limits;
use crate::run::{Run, ROOM};
use charging_model::batch::Batch;
use charging_model::event::{self, octets, Name, What};
use charging_model::limits::{Limits, Set, MOST_CHANGES, MOST_TIME, MOST_VOLUME};

/// The most that one report can have.
const REPORT: u64 = 2 * u32::MAX as u64;

impl Run {
    /// One scene of replacements or another, by turns.
    pub fn replaced(&mut self, turn: u64) {
        match turn % 7 {
            0 => self.volume_replaced(),
            1 => self.changes_replaced(),
            2 => self.time_replaced(),
            3 => self.batch_across_editions(),
            4 => self.edges_of_replacements(),
            5 => self.batch_across_editions(),
            _ => self.activations_of_sets(),
        }
    }

    /// Two different numbers up to a limit, the lower one first.
    fn two(&mut self, most: u64) -> (u64, u64) {
        let one = self.random.sized(most).max(1);
        let other = match self.random.below(4) {
            0 => one + 1,
            1 => one * 2,
            _ => self.random.sized(most).max(1),
        };
        let other = if other == one { one + 1 } else { other };
        (one.min(other).min(most - 1), one.max(other).min(most))
    }

    /// From the lower to the higher, or the other way.
    fn either_way(&mut self, low: u64, high: u64) -> (u64, u64) {
        match self.random.percent(50) {
            true => (low, high),
            false => (high, low),
        }
    }

    /// A set, a context whose open record has the first limits, and the set
    /// replaced by the second; seldom by others before.
    fn replaced_while_open(&mut self, first: Limits, second: Limits) -> Option<Name> {
        let set = self.some_set();
        let name = self.newcomer_of(set, first)?;
        if self.random.percent(30) {
            let other = self.next_limits(set);
            self.replace_by(set, other);
        }
        self.replace_by(set, second);
        self.node.find(name).map(|_| name)
    }

    /// A report that brings the open record to a sum.
    fn report_up_to(&mut self, name: Name, sum: u64) {
        if self.node.find(name).is_none() {
            return;
        }
        let missing = sum.saturating_sub(self.context(name).record_volume()).min(REPORT);
        let most = u64::from(u32::MAX);
        let up = self.random.between(missing.saturating_sub(most), missing.min(most));
        self.say(What::Traffic(name, up as u32, (missing - up) as u32));
    }

    /// To the lower volume limit and to the higher one, each missed and met;
    /// then the next record.
    fn volume_replaced(&mut self) {
        let (low, high) = self.two(REPORT);
        let others = any_limits(&mut self.random);
        let with = |volume| Limits { volume, ..others };
        let (first, second) = self.either_way(low, high);
        let Some(name) = self.replaced_while_open(with(first), with(second)) else { return };
        for sum in [low - 1, low, high - 1, high, low - 1, low, high] {
            self.report_up_to(name, sum);
        }
    }

    /// Changes one by one, over the lower change limit and the higher one.
    fn changes_replaced(&mut self) {
        let (low, high) = self.two(MOST_CHANGES.into());
        let others = Limits { volume: MOST_VOLUME, ..any_limits(&mut self.random) };
        let with = |changes| Limits { changes: changes as u8, ..others };
        let (first, second) = self.either_way(low, high);
        let Some(name) = self.replaced_while_open(with(first), with(second)) else { return };
        for _ in 0..low + high + 1 {
            if self.node.find(name).is_none() {
                return;
            }
            let mut qos = self.context(name).qos;
            qos[4] = (qos[4] + 1) % 19;
            match self.random.percent(80) {
                true => self.say(What::Qos(name, qos)),
                false => self.say(What::Tariff),
            };
        }
    }

    /// Ticks at the lower time limit and at the higher one, and a second
    /// before; then for the next record.
    fn time_replaced(&mut self) {
        let most = self.random.pick(&[10, 100, 5000, MOST_TIME.into()]);
        let (low, high) = self.two(most);
        let others = any_limits(&mut self.random);
        let with = |time| Limits { time: time as u32, ..others };
        let (first, second) = self.either_way(low, high);
        let Some(name) = self.replaced_while_open(with(first), with(second)) else { return };
        for open in [low - 1, low, high - 1, high, low - 1, low, high] {
            if self.node.find(name).is_none() {
                return;
            }
            let time = self.context(name).opened.saturating_add(open as u32);
            self.say_at(time, What::Tick);
        }
    }

    /// A batch that closes a record by the limits before the replacement, and
    /// the next ones by those after it.
    fn batch_across_editions(&mut self) {
        let (low, high) = self.two(REPORT);
        let others = any_limits(&mut self.random);
        let with = |volume| Limits { volume, ..others };
        let (first, second) = self.either_way(low, high);
        let Some(name) = self.replaced_while_open(with(first), with(second)) else { return };
        let mut volumes = Vec::new();
        for sum in [low, high - low, low, high - low, second - 1, 1] {
            let up = sum.min(u32::MAX.into());
            volumes.extend([up as u32, (sum - up) as u32]);
        }
        let time = self.time();
        self.send_batch(Batch { time, name, volumes });
    }

    /// Every length and field of a replacement at its edges.
    fn edges_of_replacements(&mut self) {
        let set = self.some_set();
        let now = *self.node.set(set).unwrap();
        let plain = self.next_limits(set);
        for event in self.replacements_at_edges(set, now.edition, plain) {
            self.call(&event, 0);
        }
        // with two faults, so that the order shows
        for _ in 0..6 {
            let mut event = self.shape(event::REPLACE, true);
            match self.random.below(3) {
                0 => self.spoil_field(&mut event),
                1 => self.spoil_time(&mut event),
                _ => event[1] ^= 1,
            }
            self.call(&event, ROOM);
        }
    }

    fn replacements_at_edges(&mut self, set: u8, edition: u16, plain: Limits) -> Vec<Vec<u8>> {
        let time = self.time();
        let with =
            |set, edition, limits| octets(time, &What::Replace(set, Set { edition, limits }));
        let next = edition.wrapping_add(1);
        let mut events = Vec::new();
        let (lower, higher) = (edition.wrapping_sub(1), next.wrapping_add(1));
        for other in [0, lower, edition, higher, next ^ 0x100, next.swap_bytes(), 65_535] {
            events.push(with(set, other, plain));
        }
        for set in [0, self.node.sets.len() as u8 + 1, 255] {
            events.push(with(set, next, plain));
        }
        for volume in [0, MOST_VOLUME + 1, u64::MAX] {
            events.push(with(set, next, Limits { volume, ..plain }));
        }
        for limit in [0, MOST_TIME + 1, u32::MAX] {
            events.push(with(set, next, Limits { time: limit, ..plain }));
        }
        for changes in [0, MOST_CHANGES + 1, 255] {
            events.push(with(set, next, Limits { changes, ..plain }));
        }
        let whole = with(set, next, plain);
        events.push(whole[..22].to_vec());
        events.push([&whole[..], &[0]].concat());
        // and the ends of each range, which are taken one after another
        let edges = [
            Limits { volume: 1, ..plain },
            Limits { volume: MOST_VOLUME, ..plain },
            Limits { time: 1, ..plain },
            Limits { time: MOST_TIME, ..plain },
            Limits { changes: 1, ..plain },
            Limits { changes: MOST_CHANGES, ..plain },
            plain,
        ];
        for (at, limits) in edges.into_iter().enumerate() {
            events.push(with(set, next.wrapping_add(at as u16), limits));
        }
        events
    }

    /// An activation of every set, and of unknown ones: with a name that is
    /// active, with a field or a time that is refused too.
    fn activations_of_sets(&mut self) {
        let last = self.node.sets.len() as u8;
        for set in (0..=last + 1).chain([9, 128, 254, 255]) {
            let wrong_name = self.random.percent(30);
            let mut event = self.shape(event::ACTIVATE, wrong_name);
            event[35] = set;
            match self.random.below(6) {
                0 => self.spoil_field(&mut event),
                1 => self.spoil_time(&mut event),
                _ => {}
            }
            self.call(&event, 0);
        }
    }

    /// So many editions of one set that their numbers take two octets.
    pub fn many_editions(&mut self) {
        let set = self.some_set();
        for at in 0..262 {
            let limits = self.next_limits(set);
            self.replace_by(set, limits);
            if at % 64 == 63 {
                let edition = self.other_edition(set);
                let what = What::Replace(set, Set { edition, limits });
                self.say_at(self.node.clock, what);
            }
        }
        self.edges_of_replacements();
    }
}
