//! The times of the events.

use crate::run::{Pace, Run};
use charging_model::clock::{day_of, LAST_SECOND};
use charging_model::event;

impl Run {
    /// A time that is not below the clock.
    pub fn time(&mut self) -> u32 {
        let clock = self.node.clock;
        if self.random.percent(30) {
            return clock;
        }
        let left = LAST_SECOND - clock;
        let on = match self.pace {
            Pace::Slow => self.random.below(5),
            Pace::Anywhere if clock == 0 => self.random.below(3_000_000_000),
            Pace::Anywhere if self.random.percent(5) => self.random.sized(1_000_000),
            Pace::Anywhere => self.random.sized(100),
            Pace::Calendar => self.calendar_step(),
            Pace::End if clock == 0 => u64::from(LAST_SECOND) - self.random.below(200_000),
            Pace::End => self.random.sized(60),
        };
        clock + on.min(u64::from(left)) as u32
    }

    /// To an edge of a day some days or months on; the whole calendar lasts
    /// for about a run.
    pub fn calendar_step(&mut self) -> u64 {
        let clock = self.node.clock;
        let day = clock / 86_400;
        let next = match self.random.below(8) {
            0 => day + 1,
            1 | 2 => {
                // The end of some February, or of a year.
                let year = 2000 + day / 366 + self.random.below(2) as u32;
                let (month, of_month) = self.random.pick(&[(2, 28), (3, 1), (12, 31), (1, 1)]);
                let at = day_of(year, month, of_month);
                at + if month == 2 { self.random.below(2) as u32 } else { 0 }
            }
            _ => day + self.random.below(45) as u32,
        };
        let second = match self.random.below(3) {
            0 => 0,
            1 => 86_399,
            _ => self.random.below(86_400) as u32,
        };
        (next.max(day) * 86_400 + second).saturating_sub(clock).into()
    }

    pub fn keeps_pace(&self, event: &[u8]) -> bool {
        if event.len() < 7 {
            return true;
        }
        let time = event::time(event);
        self.pace == Pace::End
            || time > LAST_SECOND
            || time < self.node.clock
            || time - self.node.clock < 5_000_000
            || self.node.clock == 0
    }
}
