//! Events of subscribers that are taken, one by one.

use crate::run::Run;
use charging_model::event::What;
use charging_model::subscriber::{Imsi, SUBSCRIBERS};

impl Run {
    pub fn attach(&mut self) -> u8 {
        let (imsi, place) = (self.free_imsi(), self.any_place());
        self.say(What::Attach(imsi, place))
    }

    pub fn attach_now(&mut self) -> u8 {
        let (imsi, place) = (self.free_imsi(), self.any_place());
        self.say_at(self.node.clock, What::Attach(imsi, place))
    }

    pub fn go(&mut self, imsi: Imsi) -> u8 {
        let place = self.next_place(imsi);
        self.say(What::Location(imsi, place))
    }

    pub fn detach(&mut self, imsi: Imsi) -> u8 {
        let cause = self.random.pick(&[0, 4]);
        self.say(What::Detach(imsi, cause))
    }

    /// The subscriber that most events are about: one with many changes as
    /// often as any.
    fn someone(&mut self) -> Option<Imsi> {
        let imsi = self.attached_imsi()?;
        if self.random.percent(50) {
            return Some(imsi);
        }
        let most = self.node.subscribers.iter().flatten().max_by_key(|s| s.changes.len());
        most.map(|subscriber| subscriber.imsi)
    }

    /// Some valid event of a subscriber.
    pub fn roam(&mut self) {
        let Some(imsi) = self.someone() else {
            self.attach();
            return;
        };
        match self.random.below(100) {
            0..=9 if self.node.attached() < SUBSCRIBERS => self.attach(),
            0..=85 => self.go(imsi),
            86..=91 => self.say(What::SubscriberManagement(imsi)),
            _ => self.detach(imsi),
        };
    }
}
