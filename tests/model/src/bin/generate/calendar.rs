//! Scenes about days: the first February, many years, the end of 2099.

use crate::run::Run;
use charging_model::clock::{day_of, LAST_SECOND};
use charging_model::event::What;

impl Run {
    /// 29 February 2000 and the days around it, from a fresh node.
    pub fn first_february(&mut self) {
        for (month, day) in [(2, 28), (2, 29), (3, 1)] {
            for second in [0, 86_399] {
                self.say_at(day_of(2000, month, day) * 86_400 + second, What::Tick);
                match self.active_name() {
                    Some(name) => self.say_at(self.node.clock, What::Management(name)),
                    None => self.activate_now(),
                };
                if let Some(name) = self.active_name() {
                    self.say_at(self.node.clock, What::Management(name));
                }
            }
        }
    }

    /// Contexts and subscribers that stay for many years, then the end of 2099.
    pub fn long_duration(&mut self) {
        self.activate_now();
        self.activate_now();
        self.attach_now();
        self.attach_now();
        self.say_at(2_600_000_000, What::Tariff);
        for imsi in self.attached_imsis() {
            self.go(imsi);
            self.say_at(2_600_000_000, What::Detach(imsi, 4));
        }
        for name in self.active_names() {
            self.say_at(2_600_000_000, What::Management(name));
        }
    }

    pub fn end_of_time(&mut self) {
        for _ in 0..4 {
            self.activate();
        }
        self.say_at(LAST_SECOND - 1, What::Tick);
        self.say_at(LAST_SECOND, What::Tick);
        for _ in 0..20 {
            self.walk();
            self.bad();
        }
    }
}
