//! The node: profile, sets of limits (W6), clock, accepted events, 16 slots and,
//! by W4, 16 places for subscribers.

use crate::clock::LAST_SECOND;
use crate::event::{self, Name, Qos, Start};
use crate::limits::{Limits, Set};
use crate::profile::Profile;
use crate::subscriber::{Subscriber, SUBSCRIBERS};

/// "keeps up to 16 active contexts"
pub const SLOTS: usize = 16;
/// "1,000,000,000,000,000 events accepted already"
pub const MOST_ACCEPTED: u64 = 1_000_000_000_000_000;

pub const QOS_CHANGE: u8 = 0;
pub const TARIFF_TIME: u8 = 1;
pub const RECORD_CLOSURE: u8 = 2;

/// "A container holds the QoS in force while it was counted, its volumes, its
/// ending condition and time."
#[derive(Clone, Debug, PartialEq, Eq)]
pub struct Container {
    pub qos: Qos,
    pub uplink: u64,
    pub downlink: u64,
    pub condition: u8,
    pub time: u32,
}

#[derive(Clone, Debug, PartialEq, Eq)]
pub struct Context {
    pub name: Name,
    /// What the activation said, with the APN lowered; its QoS is the one of the
    /// start only.
    pub start: Start,
    /// Records of this activation closed so far.
    pub closed: u64,
    /// The open record: when it opened, "the limits it opened with", its ended
    /// containers, its change count.
    pub opened: u32,
    pub limits: Limits,
    pub containers: Vec<Container>,
    pub changes: u32,
    /// The running container: the QoS in force and the volumes.
    pub qos: Qos,
    pub uplink: u64,
    pub downlink: u64,
}

#[derive(Clone, Debug, PartialEq, Eq)]
pub struct Node {
    pub profile: Profile,
    /// The sets of limits in force, from number 1 on.
    pub sets: Vec<Set>,
    pub clock: u32,
    pub accepted: u64,
    pub slots: Vec<Option<Context>>,
    pub subscribers: Vec<Option<Subscriber>>,
}

impl Node {
    /// "Fresh node: clock 0, no contexts, no accepted events"; no subscribers.
    /// W6: "given all it has, 1 to 8 numbered from 1, edition 1"
    pub fn fresh(profile: Profile) -> Node {
        let sets = profile.limits.iter().map(|limits| Set::first(*limits)).collect();
        let subscribers = vec![None; SUBSCRIBERS];
        Node { profile, sets, clock: 0, accepted: 0, slots: vec![None; SLOTS], subscribers }
    }

    /// The set of a number; nothing where the node does not have it.
    pub fn set(&self, number: u8) -> Option<&Set> {
        self.sets.get(usize::from(number).checked_sub(1)?)
    }

    /// "the current edition" of a set that the node has.
    pub fn limits_of(&self, number: u8) -> Limits {
        self.set(number).unwrap().limits
    }

    pub fn find(&self, name: Name) -> Option<usize> {
        self.slots.iter().position(|slot| match slot {
            Some(context) => context.name == name,
            None => false,
        })
    }

    /// "Activation takes the lowest free slot"
    pub fn lowest_free(&self) -> Option<usize> {
        self.slots.iter().position(Option::is_none)
    }

    pub fn active(&self) -> usize {
        self.slots.iter().flatten().count()
    }

    /// "A sound node", as far as this form of a node can break it: it has no
    /// unused octets or places.
    pub fn sound(&self) -> bool {
        let names: Vec<Name> = self.slots.iter().flatten().map(|c| c.name).collect();
        // "Profile in range; clock and accepted count in range"
        self.profile.in_range()
            && self.sets_sound()
            && self.clock <= LAST_SECOND
            && self.accepted <= MOST_ACCEPTED
            && self.slots.len() == SLOTS
            // "active names distinct"
            && names.iter().enumerate().all(|(at, name)| !names[..at].contains(name))
            && self.slots.iter().flatten().all(|context| self.context_sound(context))
            && self.subscribers_sound()
    }

    /// As many sets as the node was given, "each with an edition from 1", each
    /// limit in range.
    fn sets_sound(&self) -> bool {
        self.sets.len() == self.profile.limits.len() && self.sets.iter().all(Set::in_range)
    }

    fn context_sound(&self, context: &Context) -> bool {
        let start = &context.start;
        // W6: "the open record holds its limits, the sound-node rules read those
        // and want each context's set to be one the node has"
        let limits = context.limits.in_range() && self.set(start.set).is_some();
        // "stored fields in range"
        let fields = event::flags_in_range(start.flags)
            && event::imsi_in_range(&start.imsi)
            && event::apn_in_range(&start.apn)
            && event::qos_in_range(&context.qos)
            && context.containers.iter().all(|c| event::qos_in_range(&c.qos));
        // "closed records below the accepted count"
        let closed = context.closed < self.accepted;
        // "container count equals change count and is below the change limit"
        let changes = context.containers.len() == context.changes as usize
            && context.changes < u32::from(context.limits.changes);
        // "conditions 0 or 1"
        let conditions =
            context.containers.iter().all(|c| matches!(c.condition, QOS_CHANGE | TARIFF_TIME));
        // "opening ≤ container times in order ≤ clock"
        let mut times = vec![context.opened];
        times.extend(context.containers.iter().map(|c| c.time));
        times.push(self.clock);
        let in_order = times.windows(2).all(|pair| pair[0] <= pair[1]);
        // "QoS differs from one container to the next, or to the running one,
        // exactly after condition 0"
        let following = context.containers.iter().skip(1).map(|c| c.qos).chain([context.qos]);
        let qos = context
            .containers
            .iter()
            .zip(following)
            .all(|(c, next)| (c.qos != next) == (c.condition == QOS_CHANGE));
        // "all volumes of the open record sum below the volume limit"
        let volumes = context.record_volume() < context.limits.volume;
        fields && limits && closed && changes && conditions && in_order && qos && volumes
    }
}

impl Context {
    /// "uplink plus downlink since the record opened"; the greatest number
    /// stands for all that are beyond.
    pub fn record_volume(&self) -> u64 {
        let ended = self.containers.iter().flat_map(|c| [c.uplink, c.downlink]);
        ended.chain([self.uplink, self.downlink]).fold(0, u64::saturating_add)
    }
}
