//! Scenes: some events one after another that come to a limit together.

use crate::run::{Run, ROOM};
use charging_model::clock::LAST_SECOND;
use charging_model::event::{self, octets, What};
use charging_model::limits::Limits;
use charging_model::node::SLOTS;
use charging_model::step;

impl Run {
    /// Ticks and tariffs without a context.
    pub fn nobody(&mut self) {
        for name in self.active_names() {
            self.release(name);
        }
        for _ in 0..2 {
            self.say(What::Tick);
            self.say(What::Tariff);
        }
    }

    /// One context, then up to 16, with ticks and tariffs between; of one set,
    /// of any, or of every set by turns.
    pub fn fill(&mut self) {
        self.nobody();
        let in_turn = self.only_set.is_none() && self.random.percent(50);
        while self.node.active() < SLOTS && !self.full() {
            match in_turn {
                true => self.activate_in_turn(),
                false => self.activate(),
            };
            if self.node.active() == 1 {
                self.say(What::Tariff);
                self.tick();
            }
            if self.random.percent(30) {
                if let Some(name) = self.active_name() {
                    self.traffic(name);
                }
            }
        }
    }

    /// An activation of the set that follows from how many there are.
    fn activate_in_turn(&mut self) -> u8 {
        self.only_set = Some((self.node.active() % self.node.sets.len()) as u8 + 1);
        let answer = self.activate();
        self.only_set = None;
        answer
    }

    pub fn full_table(&mut self) {
        self.fill();
        for wrong_name in [false, true, false, true] {
            let event = self.shape(event::ACTIVATE, wrong_name);
            self.call(&event, ROOM);
            let mut late = event.clone();
            self.spoil_time(&mut late);
            self.call(&late, ROOM);
            let mut spoilt = event.clone();
            self.spoil_field(&mut spoilt);
            self.call(&spoilt, ROOM);
        }
        self.say(What::Tariff);
        self.tick();
        for _ in 0..3 {
            for _ in 0..self.random.between(1, 4) {
                if let Some(name) = self.active_name() {
                    self.release(name);
                }
            }
            while self.node.active() < SLOTS && !self.full() {
                self.activate();
            }
            self.say(What::Tariff);
            self.tick();
        }
    }

    /// 16 contexts of one set with as many containers as fit, closed by one
    /// tick, with rooms around what it needs.
    pub fn largest_output(&mut self) {
        let set = self.some_set();
        if self.random.percent(50) {
            let changes = self.random.pick(&[14, 15, 15]);
            let limits = Limits { changes, ..self.node.limits_of(set) };
            self.replace_by(set, limits);
        }
        self.only_set = Some(set);
        self.fill();
        self.only_set = None;
        let names = self.active_names();
        let now = self.node.clock;
        for name in &names {
            // Begin together.
            self.send(&octets(now, &What::Management(*name)));
        }
        let limits = self.node.limits_of(set);
        for _ in 1..limits.changes {
            for name in &names {
                if self.random.percent(5) {
                    self.send(&octets(now, &What::Traffic(*name, 0, 0)));
                }
            }
            self.send(&octets(now, &What::Tariff));
        }
        let limit = limits.time;
        if now > LAST_SECOND - limit {
            return;
        }
        self.say_at(now + limit - 1, What::Tick);
        let tick = octets(now + limit, &What::Tick);
        let needed = step::step(&self.node, &tick, ROOM).output.len();
        for room in [needed.saturating_sub(1), needed - needed / 16, 0, needed] {
            self.call(&tick, room);
        }
    }

    /// Changes of one context up to the change limit, twice, with traffic
    /// between that stays below the volume limit.
    pub fn changes(&mut self) {
        if self.node.active() == SLOTS {
            let name = self.active_name().unwrap();
            self.release(name);
        }
        let name = self.free_name();
        let start = self.start();
        let limits = self.node.limits_of(start.set);
        self.say(What::Activate(name, Box::new(start)));
        for _ in 0..2 * limits.changes {
            if self.node.find(name).is_none() {
                return;
            }
            let left = self.volume_left(name);
            let part = self.random.sized(left / 4).min(u32::MAX.into()) as u32;
            let mut qos = self.context(name).qos;
            qos[4] = (qos[4] + 1) % 19;
            if left > 1 {
                self.say(What::Traffic(name, part, part / 2));
            }
            if self.random.percent(85) {
                self.say(What::Qos(name, qos));
            } else {
                self.say(What::Tariff);
            }
        }
        self.release(name);
    }

    /// Many records of one activation.
    pub fn numbers(&mut self) {
        let Some(name) = self.active_name() else { return };
        for at in 0..135 {
            if self.node.find(name).is_none() {
                return;
            }
            match at % 9 {
                8 => self.traffic(name),
                _ => self.say(What::Management(name)),
            };
        }
        self.release(name);
    }

    /// Reports of the highest volumes up to the volume limit, met or missed.
    pub fn flood(&mut self) {
        let Some(name) = self.active_name() else { return };
        let most = u64::from(u32::MAX);
        for turn in 0..2 {
            for _ in 0..130 {
                if self.node.find(name).is_none() {
                    return;
                }
                let left = self.volume_left(name);
                if left > 2 * most && self.random.percent(97) {
                    self.say(What::Traffic(name, most as u32, most as u32));
                } else if left > 2 * most {
                    self.change_qos(name);
                } else {
                    let short = left - 1;
                    let up = short.min(most);
                    self.say(What::Traffic(name, up as u32, (short - up) as u32));
                    if turn == 0 {
                        self.say(What::Traffic(name, 0, 1));
                    } else {
                        self.say(What::Traffic(name, 3, 0));
                    }
                    break;
                }
            }
        }
    }
}
