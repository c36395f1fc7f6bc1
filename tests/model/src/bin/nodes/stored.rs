//! The node as a host in C holds it (include/charging.h): every stored field,
//! those of free slots and unused places too.

use charging_model::event::{Name, Qos, Start};
use charging_model::limits;
use charging_model::node;
use charging_model::profile;
use charging_model::subscriber;

pub const SLOTS: usize = node::SLOTS;
pub const PLACES: usize = 15;
/// Places for subscribers, and for the location changes of one.
pub const SUBSCRIBERS: usize = subscriber::SUBSCRIBERS;
pub const CHANGES: usize = 15;
pub const APN: usize = 63;
pub const NODE_ID: usize = 20;
/// Places for sets of limits.
pub const SETS: usize = limits::SETS;
/// "minutes from universal time plus 720"
pub const ZONE_OF_ZERO: i32 = 720;

/// A stored time keeps its offset, as a zone.
#[derive(Clone, Copy, Debug, Default, PartialEq, Eq)]
pub struct Stamp {
    pub seconds: u32,
    pub zone: u16,
}

#[derive(Clone, Copy, Debug, Default, PartialEq, Eq)]
pub struct Container {
    pub qos: Qos,
    pub uplink: u64,
    pub downlink: u64,
    pub condition: u8,
    pub time: Stamp,
}

/// When a record closes by itself; and a set of these, of which the edition is
/// in force.
#[derive(Clone, Copy, Debug, Default, PartialEq, Eq)]
pub struct Limits {
    pub volume: u64,
    pub seconds: u32,
    pub changes: u8,
}

#[derive(Clone, Copy, Debug, Default, PartialEq, Eq)]
pub struct LimitSet {
    pub edition: u16,
    pub limits: Limits,
}

#[derive(Clone, Copy, Debug, PartialEq, Eq)]
pub struct Context {
    pub active: u8,
    pub flags: u8,
    pub set: u8,
    pub id: u32,
    pub ggsn: u32,
    pub imsi: [u8; 8],
    pub apn: [u8; APN],
    pub apnlen: u64,
    pub pdptype: u16,
    pub address: u32,
    pub qos: Qos,
    /// Those of the open record.
    pub limits: Limits,
    pub uplink: u64,
    pub downlink: u64,
    pub opening: Stamp,
    pub changes: u8,
    pub containers: [Container; PLACES],
    pub count: u64,
    pub closed: u64,
}

#[derive(Clone, Copy, Debug, Default, PartialEq, Eq)]
pub struct Place {
    pub lac: u16,
    pub rac: u8,
}

#[derive(Clone, Copy, Debug, Default, PartialEq, Eq)]
pub struct Change {
    pub place: Place,
    pub time: Stamp,
}

#[derive(Clone, Copy, Debug, Default, PartialEq, Eq)]
pub struct Subscriber {
    pub active: u8,
    pub imsi: [u8; 8],
    pub place: Place,
    pub opening: Stamp,
    pub changes: [Change; CHANGES],
    pub count: u64,
    pub closed: u64,
}

#[derive(Clone, Copy, Debug, Default, PartialEq, Eq)]
pub struct Profile {
    pub sgsn: u32,
    pub limits: [Limits; SETS],
    pub sets: u64,
    pub zone: u16,
    pub nodeid: [u8; NODE_ID],
    pub nodelen: u64,
}

#[derive(Clone, Debug, PartialEq, Eq)]
pub struct Stored {
    pub profile: Profile,
    /// The sets in force; as many are used as the profile says.
    pub settings: [LimitSet; SETS],
    pub clock: u32,
    pub accepted: u64,
    pub contexts: [Context; SLOTS],
    pub subscribers: [Subscriber; SUBSCRIBERS],
}

/// A free slot: "all zero".
pub const FREE: Context = Context {
    active: 0,
    flags: 0,
    set: 0,
    id: 0,
    ggsn: 0,
    imsi: [0; 8],
    apn: [0; APN],
    apnlen: 0,
    pdptype: 0,
    address: 0,
    qos: [0; 5],
    limits: Limits { volume: 0, seconds: 0, changes: 0 },
    uplink: 0,
    downlink: 0,
    opening: Stamp { seconds: 0, zone: 0 },
    changes: 0,
    containers: [Container {
        qos: [0; 5],
        uplink: 0,
        downlink: 0,
        condition: 0,
        time: Stamp { seconds: 0, zone: 0 },
    }; PLACES],
    count: 0,
    closed: 0,
};

/// As much of a length as the octets or places allow.
pub fn within(length: u64, most: usize) -> usize {
    usize::try_from(length).unwrap_or(most).min(most)
}

impl Limits {
    fn view(self) -> limits::Limits {
        limits::Limits { volume: self.volume, time: self.seconds, changes: self.changes }
    }

    pub fn store(limits: limits::Limits) -> Limits {
        Limits { volume: limits.volume, seconds: limits.time, changes: limits.changes }
    }
}

impl LimitSet {
    fn view(self) -> limits::Set {
        limits::Set { edition: self.edition, limits: self.limits.view() }
    }

    pub fn store(set: limits::Set) -> LimitSet {
        LimitSet { edition: set.edition, limits: Limits::store(set.limits) }
    }
}

impl Context {
    pub fn apn(&self) -> &[u8] {
        &self.apn[..within(self.apnlen, APN)]
    }

    /// The ended containers of the open record.
    pub fn used(&self) -> &[Container] {
        &self.containers[..within(self.count, PLACES)]
    }

    pub fn unused(&self) -> &[Container] {
        &self.containers[within(self.count, PLACES)..]
    }

    pub fn name(&self) -> Name {
        Name { charging_id: self.id, ggsn: self.ggsn.to_be_bytes() }
    }

    fn view(&self) -> node::Context {
        let view = |c: &Container| node::Container {
            qos: c.qos,
            uplink: c.uplink,
            downlink: c.downlink,
            condition: c.condition,
            time: c.time.seconds,
        };
        node::Context {
            name: self.name(),
            start: Start {
                flags: self.flags,
                imsi: self.imsi,
                pdp_type: self.pdptype.to_be_bytes(),
                address: self.address.to_be_bytes(),
                qos: self.qos,
                set: self.set,
                apn: self.apn().to_vec(),
            },
            closed: self.closed,
            opened: self.opening.seconds,
            limits: self.limits.view(),
            containers: self.used().iter().map(view).collect(),
            changes: self.changes.into(),
            qos: self.qos,
            uplink: self.uplink,
            downlink: self.downlink,
        }
    }

    fn store(context: &node::Context, zone: u16) -> Context {
        let mut stored = Context {
            active: 1,
            flags: context.start.flags,
            set: context.start.set,
            id: context.name.charging_id,
            ggsn: u32::from_be_bytes(context.name.ggsn),
            imsi: context.start.imsi,
            apnlen: context.start.apn.len() as u64,
            pdptype: u16::from_be_bytes(context.start.pdp_type),
            address: u32::from_be_bytes(context.start.address),
            qos: context.qos,
            limits: Limits::store(context.limits),
            uplink: context.uplink,
            downlink: context.downlink,
            opening: Stamp { seconds: context.opened, zone },
            changes: context.changes as u8,
            count: context.containers.len() as u64,
            closed: context.closed,
            ..FREE
        };
        stored.apn[..context.start.apn.len()].copy_from_slice(&context.start.apn);
        for (place, c) in stored.containers.iter_mut().zip(&context.containers) {
            *place = Container {
                qos: c.qos,
                uplink: c.uplink,
                downlink: c.downlink,
                condition: c.condition,
                time: Stamp { seconds: c.time, zone },
            };
        }
        stored
    }
}

impl Place {
    fn view(self) -> subscriber::Place {
        subscriber::Place { lac: self.lac, rac: self.rac }
    }

    pub fn store(place: subscriber::Place) -> Place {
        Place { lac: place.lac, rac: place.rac }
    }
}

impl Subscriber {
    /// The location changes of the open record.
    pub fn used(&self) -> &[Change] {
        &self.changes[..within(self.count, CHANGES)]
    }

    pub fn unused(&self) -> &[Change] {
        &self.changes[within(self.count, CHANGES)..]
    }

    pub fn place_in_force(&self) -> Place {
        self.used().last().map_or(self.place, |change| change.place)
    }

    fn view(&self) -> subscriber::Subscriber {
        let view = |c: &Change| subscriber::Change { place: c.place.view(), time: c.time.seconds };
        subscriber::Subscriber {
            imsi: self.imsi,
            closed: self.closed,
            place: self.place.view(),
            opened: self.opening.seconds,
            changes: self.used().iter().map(view).collect(),
        }
    }

    fn store(subscriber: &subscriber::Subscriber, zone: u16) -> Subscriber {
        let mut stored = Subscriber {
            active: 1,
            imsi: subscriber.imsi,
            place: Place::store(subscriber.place),
            opening: Stamp { seconds: subscriber.opened, zone },
            count: subscriber.changes.len() as u64,
            closed: subscriber.closed,
            ..Subscriber::default()
        };
        for (stored, change) in stored.changes.iter_mut().zip(&subscriber.changes) {
            let time = Stamp { seconds: change.time, zone };
            *stored = Change { place: Place::store(change.place), time };
        }
        stored
    }
}

impl Stored {
    pub fn zero() -> Stored {
        Stored {
            profile: Profile::default(),
            settings: [LimitSet::default(); SETS],
            clock: 0,
            accepted: 0,
            contexts: [FREE; SLOTS],
            subscribers: [Subscriber::default(); SUBSCRIBERS],
        }
    }

    pub fn attached(&self) -> impl Iterator<Item = &Subscriber> {
        self.subscribers.iter().filter(|s| s.active == 1)
    }

    /// The places for subscribers with this `active`.
    pub fn places(&self, active: u8) -> Vec<usize> {
        (0..SUBSCRIBERS).filter(|at| self.subscribers[*at].active == active).collect()
    }

    /// How many sets of limits are used.
    pub fn sets(&self) -> usize {
        within(self.profile.sets, SETS)
    }

    pub fn active(&self) -> impl Iterator<Item = &Context> {
        self.contexts.iter().filter(|c| c.active == 1)
    }

    /// The slots with this `active`.
    pub fn slots(&self, active: u8) -> Vec<usize> {
        (0..SLOTS).filter(|at| self.contexts[*at].active == active).collect()
    }

    /// The model's node; what it does not hold is lost.
    pub fn view(&self) -> node::Node {
        let profile = &self.profile;
        let mut view = node::Node::fresh(profile::Profile {
            sgsn: profile.sgsn.to_be_bytes(),
            limits: profile.limits[..self.sets()].iter().map(|limits| limits.view()).collect(),
            offset: i32::from(profile.zone) - ZONE_OF_ZERO,
            node_id: profile.nodeid[..within(profile.nodelen, NODE_ID)].to_vec(),
        });
        view.sets = self.settings[..self.sets()].iter().map(|set| set.view()).collect();
        view.clock = self.clock;
        view.accepted = self.accepted;
        let slot = |c: &Context| (c.active == 1).then(|| c.view());
        view.slots = self.contexts.iter().map(slot).collect();
        let place = |s: &Subscriber| (s.active == 1).then(|| s.view());
        view.subscribers = self.subscribers.iter().map(place).collect();
        view
    }

    /// "free slots, unused octets and unused container places all zero"
    pub fn store(node: &node::Node) -> Stored {
        let profile = &node.profile;
        let zone = (profile.offset + ZONE_OF_ZERO) as u16;
        let mut stored = Stored::zero();
        stored.profile = Profile {
            sgsn: u32::from_be_bytes(profile.sgsn),
            limits: [Limits::default(); SETS],
            sets: profile.limits.len() as u64,
            zone,
            nodeid: [0; NODE_ID],
            nodelen: profile.node_id.len() as u64,
        };
        stored.profile.nodeid[..profile.node_id.len()].copy_from_slice(&profile.node_id);
        for (place, limits) in stored.profile.limits.iter_mut().zip(&profile.limits) {
            *place = Limits::store(*limits);
        }
        for (place, set) in stored.settings.iter_mut().zip(&node.sets) {
            *place = LimitSet::store(*set);
        }
        stored.clock = node.clock;
        stored.accepted = node.accepted;
        for (slot, context) in stored.contexts.iter_mut().zip(&node.slots) {
            *slot = context.as_ref().map_or(FREE, |c| Context::store(c, zone));
        }
        for (place, subscriber) in stored.subscribers.iter_mut().zip(&node.subscribers) {
            let store = |s: &subscriber::Subscriber| Subscriber::store(s, zone);
            *place = subscriber.as_ref().map(store).unwrap_or_default();
        }
        stored
    }
}

// ---- the fields one after another, in the header's order ----

/// What is done with each field: its octets, lowest first.
pub trait Walk {
    fn field(&mut self, name: &'static str, octets: &mut [u8]);
    /// The fields that follow belong to this part, up to the next of its depth.
    fn part(&mut self, _depth: usize, _name: &'static str, _at: usize) {}
}

macro_rules! number {
    ($walk:expr, $name:literal, $field:expr) => {{
        let mut octets = $field.to_le_bytes();
        $walk.field($name, &mut octets);
        copy_back(&mut $field, octets);
    }};
}

trait Number<const N: usize> {
    fn set(&mut self, octets: [u8; N]);
}

macro_rules! numbers {
    ($($kind:ty, $size:literal;)*) => {
        $(impl Number<$size> for $kind {
            fn set(&mut self, octets: [u8; $size]) {
                *self = <$kind>::from_le_bytes(octets);
            }
        })*
    };
}
numbers! { u8, 1; u16, 2; u32, 4; u64, 8; }

fn copy_back<const N: usize>(field: &mut impl Number<N>, octets: [u8; N]) {
    field.set(octets);
}

fn walk_stamp(walk: &mut impl Walk, stamp: &mut Stamp) {
    number!(walk, "seconds", stamp.seconds);
    number!(walk, "zone", stamp.zone);
}

fn walk_limits(walk: &mut impl Walk, limits: &mut Limits) {
    number!(walk, "volume", limits.volume);
    number!(walk, "seconds", limits.seconds);
    number!(walk, "changes", limits.changes);
}

fn walk_container(walk: &mut impl Walk, container: &mut Container) {
    walk.field("qos", &mut container.qos);
    number!(walk, "uplink", container.uplink);
    number!(walk, "downlink", container.downlink);
    number!(walk, "condition", container.condition);
    walk_stamp(walk, &mut container.time);
}

fn walk_context(walk: &mut impl Walk, context: &mut Context) {
    number!(walk, "active", context.active);
    number!(walk, "flags", context.flags);
    number!(walk, "set", context.set);
    number!(walk, "id", context.id);
    number!(walk, "ggsn", context.ggsn);
    walk.field("imsi", &mut context.imsi);
    walk.field("apn", &mut context.apn);
    number!(walk, "apnlen", context.apnlen);
    number!(walk, "pdptype", context.pdptype);
    number!(walk, "address", context.address);
    walk.field("qos", &mut context.qos);
    walk.part(1, "limits", 0);
    walk_limits(walk, &mut context.limits);
    walk.part(1, "", 0);
    number!(walk, "uplink", context.uplink);
    number!(walk, "downlink", context.downlink);
    walk_stamp(walk, &mut context.opening);
    number!(walk, "changes", context.changes);
    for (at, container) in context.containers.iter_mut().enumerate() {
        walk.part(1, "container", at);
        walk_container(walk, container);
    }
    walk.part(1, "", 0);
    number!(walk, "count", context.count);
    number!(walk, "closed", context.closed);
}

fn walk_place(walk: &mut impl Walk, place: &mut Place) {
    number!(walk, "lac", place.lac);
    number!(walk, "rac", place.rac);
}

fn walk_subscriber(walk: &mut impl Walk, subscriber: &mut Subscriber) {
    number!(walk, "active", subscriber.active);
    walk.field("imsi", &mut subscriber.imsi);
    walk_place(walk, &mut subscriber.place);
    walk_stamp(walk, &mut subscriber.opening);
    for (at, change) in subscriber.changes.iter_mut().enumerate() {
        walk.part(1, "change", at);
        walk_place(walk, &mut change.place);
        walk_stamp(walk, &mut change.time);
    }
    walk.part(1, "", 0);
    number!(walk, "count", subscriber.count);
    number!(walk, "closed", subscriber.closed);
}

fn walk_profile(walk: &mut impl Walk, profile: &mut Profile) {
    number!(walk, "sgsn", profile.sgsn);
    for (at, limits) in profile.limits.iter_mut().enumerate() {
        walk.part(0, "profile's limits", at);
        walk_limits(walk, limits);
    }
    walk.part(0, "", 0);
    number!(walk, "sets", profile.sets);
    number!(walk, "zone", profile.zone);
    walk.field("nodeid", &mut profile.nodeid);
    number!(walk, "nodelen", profile.nodelen);
}

impl Stored {
    pub fn walk(&mut self, walk: &mut impl Walk) {
        walk_profile(walk, &mut self.profile);
        for (at, set) in self.settings.iter_mut().enumerate() {
            walk.part(0, "set", at);
            number!(walk, "edition", set.edition);
            walk_limits(walk, &mut set.limits);
        }
        walk.part(0, "", 0);
        number!(walk, "clock", self.clock);
        number!(walk, "accepted", self.accepted);
        for (at, context) in self.contexts.iter_mut().enumerate() {
            walk.part(0, "slot", at);
            walk_context(walk, context);
        }
        for (at, subscriber) in self.subscribers.iter_mut().enumerate() {
            walk.part(0, "subscriber", at);
            walk_subscriber(walk, subscriber);
        }
    }

    pub fn octets(&self) -> Vec<u8> {
        struct Put(Vec<u8>);
        impl Walk for Put {
            fn field(&mut self, _: &'static str, octets: &mut [u8]) {
                self.0.extend_from_slice(octets);
            }
        }
        let mut put = Put(Vec::with_capacity(OCTETS));
        self.clone().walk(&mut put);
        put.0
    }

    pub fn of_octets(octets: &[u8]) -> Stored {
        struct Take<'a>(&'a [u8]);
        impl Walk for Take<'_> {
            fn field(&mut self, _: &'static str, octets: &mut [u8]) {
                let (taken, left) = self.0.split_at(octets.len());
                octets.copy_from_slice(taken);
                self.0 = left;
            }
        }
        let mut stored = Stored::zero();
        stored.walk(&mut Take(octets));
        stored
    }
}

/// How many octets a node's fields have.
pub const OCTETS: usize = (42 + SETS * 13)
    + SETS * 15
    + 12
    + SLOTS * (153 + PLACES * 28)
    + SUBSCRIBERS * (34 + CHANGES * 9);

/// What the octet at a place belongs to.
pub fn field_at(place: usize) -> String {
    struct Find {
        left: usize,
        parts: [String; 2],
        found: Option<String>,
    }
    impl Walk for Find {
        fn field(&mut self, name: &'static str, octets: &mut [u8]) {
            if self.found.is_none() && self.left < octets.len() {
                self.found = Some(format!("{}{name}, octet {}", self.parts.concat(), self.left));
            }
            self.left = self.left.wrapping_sub(octets.len());
        }
        fn part(&mut self, depth: usize, name: &'static str, at: usize) {
            let part = format!("{name} {at}, ");
            self.parts[depth] = if name.is_empty() { String::new() } else { part };
        }
    }
    let mut find = Find { left: place, parts: Default::default(), found: None };
    Stored::zero().walk(&mut find);
    find.found.unwrap_or("no field".into())
}
