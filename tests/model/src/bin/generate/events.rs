//! Events that are taken, one by one.

use crate::run::Run;
use charging_model::clock::LAST_SECOND;
use charging_model::event::{Name, What, QOS_HIGHEST};
use charging_model::node::SLOTS;

impl Run {
    pub fn activate(&mut self) -> u8 {
        let name = self.free_name();
        let start = self.start();
        self.say(What::Activate(name, Box::new(start)))
    }

    pub fn activate_now(&mut self) -> u8 {
        let name = self.free_name();
        let start = self.start();
        self.say_at(self.node.clock, What::Activate(name, Box::new(start)))
    }

    pub fn traffic(&mut self, name: Name) -> u8 {
        let left = self.volume_left(name);
        let (uplink, downlink) = self.volumes(left);
        self.say(What::Traffic(name, uplink, downlink))
    }

    pub fn change_qos(&mut self, name: Name) -> u8 {
        let mut qos = self.context(name).qos;
        match self.random.below(4) {
            0 => {}
            1 => {
                // One level differs.
                let at = self.random.below(5) as usize;
                qos[at] = self.random.between(0, QOS_HIGHEST[at].into()) as u8;
            }
            _ => qos = self.qos(),
        }
        self.say(What::Qos(name, qos))
    }

    pub fn release(&mut self, name: Name) -> u8 {
        let cause = self.random.pick(&[0, 4, 18]);
        self.say(What::Release(name, cause))
    }

    /// A tick at, or one second before, some context's time limit.
    pub fn tick(&mut self) -> u8 {
        let name = self.active_name();
        if let Some(name) = name.filter(|_| self.random.percent(60)) {
            let context = self.context(name);
            let met = context.opened.saturating_add(context.limits.time);
            let time = met - self.random.below(2) as u32;
            if time >= self.node.clock && time <= LAST_SECOND {
                return self.say_at(time, What::Tick);
            }
        }
        self.say(What::Tick)
    }

    /// Some valid event, as sessions go.
    pub fn walk(&mut self) {
        let Some(name) = self.active_name() else {
            match self.random.below(6) {
                0 => self.say(What::Tick),
                1 => self.say(What::Tariff),
                2 if self.random.percent(30) => self.replace(),
                _ => self.activate(),
            };
            return;
        };
        match self.random.below(100) {
            0..=13 if self.node.active() < SLOTS => self.activate(),
            0..=47 => self.traffic(name),
            48..=50 => self.replace(),
            51..=68 => self.change_qos(name),
            69..=72 => self.say(What::Tariff),
            73..=86 => self.release(name),
            87..=92 => self.tick(),
            _ => self.say(What::Management(name)),
        };
    }
}
