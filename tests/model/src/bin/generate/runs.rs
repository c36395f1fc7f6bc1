//! What a whole run is made of.

use crate::run::{Pace, Run};

impl Run {
    /// A whole run.
    pub fn fill_up(&mut self, run: usize) {
        self.begin(run);
        let mut scene = self.random.below(10);
        while !self.full() {
            self.scene(run, (scene + run as u64) % 10);
            self.journey(scene + run as u64);
            self.replaced(scene + run as u64);
            scene += 1;
            for _ in 0..50 {
                self.some_events();
            }
            if self.pace == Pace::End && self.count > self.most * 2 / 3 {
                self.end_of_time();
                self.last_second();
            }
        }
    }

    /// How a run begins: what 01 prints, or what needs an early time.
    fn begin(&mut self, run: usize) {
        if run == 0 {
            self.printed_sessions();
        }
        if run % 3 == 0 {
            self.early_batch();
        }
        if run % 12 == 2 {
            self.attached_in_february();
        }
        if run % 6 == 0 || run % 6 == 2 {
            self.first_february();
        }
        if run % 6 == 5 && run % 4 != 0 {
            self.long_duration();
        }
        self.nobody();
        if run % 8 == 4 {
            self.many_records();
        }
        if run % 16 == 7 {
            self.many_editions();
        }
    }

    fn scene(&mut self, run: usize, scene: u64) {
        match scene {
            0 => self.full_table(),
            1 => self.largest_output(),
            2 if run % 3 == 0 => self.numbers(),
            3 => self.flood(),
            4 if run % 2 == 0 => self.lengths(),
            5 => self.fields_of_activate(),
            6 if run % 4 == 3 => self.other_fields(),
            6 if run % 4 == 1 => self.both_full(),
            7 => self.heads(),
            8 => self.changes(),
            9 if run % 4 == 1 => self.longest_batch(),
            _ => {}
        }
    }

    /// An event of a context, events of subscribers, refused ones, batches.
    fn some_events(&mut self) {
        self.walk();
        self.roam();
        if self.random.percent(80) {
            self.roam();
        }
        if self.random.percent(40) {
            self.bad();
        }
        if self.random.percent(50) {
            self.bad_of_subscriber();
        }
        while self.random.percent(50) {
            self.some_batch();
        }
    }
}
