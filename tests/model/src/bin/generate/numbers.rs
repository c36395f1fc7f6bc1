//! A run in which the numbers of an activation pass 32,768.

use crate::run::{Run, ROOM};
use charging_model::event::{octets, What};
use charging_model::limits::Limits;
use charging_model::node::Node;
use charging_model::profile::Profile;

/// One more closes at the release; from 32,768 on a number takes three octets.
const RECORDS: usize = 32_775;

/// The run of numbers, of a node on which every event closes a record.
pub fn run() -> Run {
    let mut one = Run::new(0, 0, usize::MAX);
    let limits = vec![Limits { volume: 1, time: 1, changes: 1 }];
    let profile = Profile { limits, ..one.node.profile.clone() };
    one.node = Node::fresh(profile);
    one.many_numbers();
    one
}

impl Run {
    /// Records of one activation by each cause that lets the next one open, up
    /// to its release; then the same name is a new activation.
    fn many_numbers(&mut self) {
        self.activate_now();
        let name = self.active_name().unwrap();
        for at in 0..RECORDS {
            let now = self.node.clock;
            let context = self.node.slots.iter().flatten().next().unwrap();
            let mut qos = context.qos;
            qos[4] = (qos[4] + 1) % 19;
            let (time, what) = match at % 5 {
                0 => (now, What::Management(name)),
                1 => (now, What::Traffic(name, 0, 1)),
                2 => (now, What::Qos(name, qos)),
                3 => (now, What::Tariff),
                _ => (now + 1, What::Tick),
            };
            self.call(&octets(time, &what), ROOM);
        }
        let now = self.node.clock;
        self.call(&octets(now, &What::Release(name, 0)), ROOM);
        let start = self.start();
        self.call(&octets(now, &What::Activate(name, Box::new(start))), ROOM);
        self.call(&octets(now, &What::Management(name)), ROOM);
    }
}
