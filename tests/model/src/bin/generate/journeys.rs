//! Scenes of subscribers: some events one after another that come to a limit
//! together.

use crate::run::{Run, ROOM};
use charging_model::clock::{day_of, LAST_SECOND};
use charging_model::event::{self, octets, What};
use charging_model::step;
use charging_model::subscriber::{Imsi, Place, SUBSCRIBERS};

impl Run {
    /// One scene of subscribers or another, by turns.
    pub fn journey(&mut self, turn: u64) {
        match turn % 7 {
            0 => self.fifteen_changes(),
            1 => self.full_of_subscribers(),
            2 => self.fourteen_then(),
            3 => self.several_attachments(),
            4 => self.edges_of_subscribers(),
            5 => self.near_names(),
            _ => self.rooms(),
        }
    }

    /// A subscriber with a free place, attached now.
    fn newcomer(&mut self) -> Imsi {
        if self.node.attached() == SUBSCRIBERS {
            let imsi = self.attached_imsi().unwrap();
            self.detach(imsi);
        }
        let (imsi, place) = (self.free_imsi(), self.any_place());
        self.say(What::Attach(imsi, place));
        imsi
    }

    fn place_of(&self, imsi: Imsi) -> Option<Place> {
        let at = self.node.find_subscriber(imsi)?;
        Some(self.node.subscribers[at].as_ref().unwrap().place_in_force())
    }

    /// So many real changes, sometimes with one to the same place between.
    fn move_on(&mut self, imsi: Imsi, changes: u64) {
        for _ in 0..changes {
            let Some(old) = self.place_of(imsi) else { return };
            if self.random.percent(10) {
                self.say(What::Location(imsi, old));
            }
            let place = self.other_place(old);
            self.say(What::Location(imsi, place));
        }
    }

    /// Changes up to the fifteenth, which closes; more than one record of
    /// them, and a few after that. Some all at one time, some between two
    /// places.
    fn fifteen_changes(&mut self) {
        let imsi = self.newcomer();
        let Some(home) = self.place_of(imsi) else { return };
        match self.random.below(3) {
            0 => self.move_on(imsi, 15),
            1 => {
                let now = self.node.clock;
                for _ in 0..15 {
                    let Some(old) = self.place_of(imsi) else { return };
                    let place = self.other_place(old);
                    self.say_at(now, What::Location(imsi, place));
                }
            }
            _ => {
                let away = self.other_place(home);
                for at in 0..15 {
                    let place = if at % 2 == 0 { away } else { home };
                    self.say(What::Location(imsi, place));
                }
            }
        }
        // The next record opened at the last place: to go there is no change.
        if let Some(place) = self.place_of(imsi) {
            self.say(What::Location(imsi, place));
        }
        let more = self.random.pick(&[0, 1, 2, 14, 15, 16]);
        self.move_on(imsi, more);
        self.detach(imsi);
    }

    /// Fourteen changes leave the record open; then each of the things that
    /// may come next.
    fn fourteen_then(&mut self) {
        let imsi = self.newcomer();
        self.move_on(imsi, 14);
        let Some(place) = self.place_of(imsi) else { return };
        match self.random.below(4) {
            0 => self.say(What::Location(imsi, place)),
            1 => self.say(What::Tariff),
            2 => self.tick(),
            _ => 0,
        };
        match self.random.below(3) {
            0 => self.detach(imsi),
            1 => self.say(What::SubscriberManagement(imsi)),
            _ => {
                let other = self.other_place(place);
                self.say(What::Location(imsi, other))
            }
        };
    }

    /// Management, then to the place of the new opening, and to the one of the
    /// opening before.
    fn managed(&mut self, imsi: Imsi) {
        let Some(home) = self.place_of(imsi) else { return };
        let away = self.other_place(home);
        self.say(What::SubscriberManagement(imsi));
        self.say(What::Location(imsi, away));
        self.say(What::SubscriberManagement(imsi));
        self.say(What::Location(imsi, away));
        self.say(What::Location(imsi, home));
    }

    /// One IMSI attached and detached, again and again: sole records with and
    /// without changes, and several records of one attachment.
    fn several_attachments(&mut self) {
        let imsi = self.newcomer();
        for round in 0..5 {
            match round {
                0 => {}
                1 => {
                    self.go(imsi);
                }
                2 => self.managed(imsi),
                _ => {
                    for _ in 0..self.random.between(1, 4) {
                        self.say(What::SubscriberManagement(imsi));
                        self.go(imsi);
                    }
                }
            }
            self.detach(imsi);
            let place = self.any_place();
            self.say(What::Attach(imsi, place));
        }
        self.detach(imsi);
    }

    fn fill_with_subscribers(&mut self) {
        while self.node.attached() < SUBSCRIBERS && !self.full() {
            self.attach();
            if self.random.percent(30) {
                if let Some(imsi) = self.attached_imsi() {
                    self.go(imsi);
                }
            }
        }
    }

    /// No place is free: 17, and 15 before it; then places that come free are
    /// taken again, the lowest first.
    fn full_of_subscribers(&mut self) {
        self.fill_with_subscribers();
        for wrong_name in [false, true, false, true] {
            let event = self.shape(event::ATTACH, wrong_name);
            self.call(&event, ROOM);
            let mut late = event.clone();
            self.spoil_time(&mut late);
            self.call(&late, ROOM);
            let mut spoilt = event.clone();
            self.spoil_imsi(&mut spoilt[7..15]);
            self.call(&spoilt, ROOM);
            let mut strange = event.clone();
            strange[1] ^= 1;
            self.call(&strange, ROOM);
        }
        self.say(What::Tariff);
        self.tick();
        for _ in 0..2 {
            for _ in 0..self.random.between(1, 4) {
                if let Some(imsi) = self.attached_imsi() {
                    self.detach(imsi);
                }
            }
            self.fill_with_subscribers();
        }
    }

    /// Both tables full.
    pub fn both_full(&mut self) {
        self.fill_with_subscribers();
        self.fill();
        if let Some(imsi) = self.attached_imsi() {
            self.detach(imsi);
        }
        self.attach_now();
        for kind in [event::ACTIVATE, event::ATTACH] {
            let event = self.shape(kind, false);
            self.call(&event, ROOM);
        }
        self.tick();
        self.say(What::Tariff);
    }

    /// Every kind with its length and the ones beside it, and its fields at
    /// their edges, for an attached subscriber and for another.
    fn edges_of_subscribers(&mut self) {
        for kind in event::ATTACH..=event::DETACH {
            for wrong_name in [false, true] {
                let event = self.shape(kind, wrong_name);
                self.call(&event[..event.len() - 1], ROOM);
                let longer = [&event[..], &[0]].concat();
                self.call(&longer, ROOM);
                let mut spoilt = event.clone();
                self.spoil_imsi(&mut spoilt[7..15]);
                self.call(&spoilt, ROOM);
                self.spoil_time(&mut spoilt);
                self.call(&spoilt, 0);
                let mut late = event;
                self.spoil_time(&mut late);
                self.call(&late, 0);
            }
        }
        for cause in [1, 3, 5, 16, 17, 18, 19, 20, 255] {
            let wrong_name = self.random.percent(30);
            let mut event = self.shape(event::DETACH, wrong_name);
            event[15] = cause;
            let room = self.random.pick(&[0, ROOM]);
            self.call(&event, room);
        }
        for digits in 0..=16 {
            let mut event = self.shape(event::ATTACH, false);
            event[7..15].copy_from_slice(&self.imsi(digits));
            self.call(&event, 0);
        }
        for (lac, rac) in [(0, 0), (0xFFFF, 0xFF), (0, 0xFF), (0xFFFF, 0), (0xFF, 1)] {
            if let Some(imsi) = self.attached_imsi() {
                self.say(What::Location(imsi, Place { lac, rac }));
            }
        }
    }

    /// IMSIs near an attached one: in the last digit, or in length alone.
    /// First they are not attached, then they are, then one is detached.
    fn near_names(&mut self) {
        for _ in 0..4 {
            if let Some(imsi) = self.attached_imsi().filter(|_| self.node.attached() > 12) {
                self.detach(imsi);
            }
        }
        let short = self.imsi(6);
        let mut long = short;
        long[3] = 0xF0 | self.random.below(10) as u8;
        let mut other = short;
        other[2] = other[2] & 15 | ((other[2] >> 4) + 1) % 10 << 4;
        for imsi in [short, long, other] {
            for what in [
                What::Location(imsi, self.any_place()),
                What::SubscriberManagement(imsi),
                What::Detach(imsi, 0),
            ] {
                self.say(what);
            }
            let place = self.any_place();
            self.say(What::Attach(imsi, place));
        }
        for imsi in [long, short, other] {
            self.go(imsi);
            self.say(What::SubscriberManagement(imsi));
        }
        for imsi in [short, other, long] {
            self.detach(imsi);
            self.say(What::SubscriberManagement(imsi));
        }
    }

    /// A closing with rooms around what it needs, in each way to close.
    fn rooms(&mut self) {
        for turn in 0..3 {
            let imsi = self.newcomer();
            let changes = if turn == 0 { 14 } else { self.random.below(15) };
            self.move_on(imsi, changes);
            let Some(old) = self.place_of(imsi) else { return };
            let what = match turn {
                0 => What::Location(imsi, self.other_place(old)),
                1 => What::SubscriberManagement(imsi),
                _ => What::Detach(imsi, self.random.pick(&[0, 4])),
            };
            let event = octets(self.time(), &what);
            let needed = step::step(&self.node, &event, ROOM).output.len();
            for room in [needed.saturating_sub(1), needed.saturating_sub(2), 0, needed] {
                self.call(&event, room);
            }
        }
    }

    /// Many records of one attachment.
    pub fn many_records(&mut self) {
        let imsi = self.newcomer();
        for at in 0..160 {
            match at % 9 {
                8 => self.go(imsi),
                _ => self.say(What::SubscriberManagement(imsi)),
            };
        }
        self.detach(imsi);
    }

    /// The first event of a run, and the leap day of 2000.
    pub fn attached_in_february(&mut self) {
        let imsi = self.newcomer();
        for (month, day) in [(2, 28), (2, 29), (3, 1)] {
            for second in [0, 86_399] {
                let time = day_of(2000, month, day) * 86_400 + second;
                let place = self.next_place(imsi);
                self.say_at(time, What::Location(imsi, place));
                self.say_at(time, What::SubscriberManagement(imsi));
            }
        }
    }

    /// In the last second of 2099.
    pub fn last_second(&mut self) {
        for _ in 0..10 {
            self.roam();
            self.bad_of_subscriber();
        }
        if let Some(imsi) = self.attached_imsi() {
            self.say_at(LAST_SECOND, What::SubscriberManagement(imsi));
        }
    }
}
