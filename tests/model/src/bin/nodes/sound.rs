//! "A sound node", rule by rule, of a node with all its stored fields. Written
//! from document 01 and, for stored capitals, from request W5 alone; words in
//! quotes are the documents'. The rules of subscribers (02, W4) are in
//! sound_subscribers.rs, those of sets of limits (W6) in sound_limits.rs.

use crate::sound_limits as limits;
use crate::sound_subscribers as subscribers;
use crate::stored::{within, Container, Context, Stored, APN, NODE_ID};
use charging_model::event::{Name, Qos};

// ---- the ranges ----

#[derive(Clone, Copy, Debug, PartialEq, Eq)]
pub enum Range {
    Sets,
    GivenVolume,
    GivenTime,
    GivenChanges,
    Edition,
    SetVolume,
    SetTime,
    SetChanges,
    RecordVolume,
    RecordTime,
    RecordChanges,
    Zone,
    NodeIdLength,
    NodeIdCharacter,
    Clock,
    Accepted,
    Flags,
    ImsiDigits,
    ApnLength,
    Signs,
    Digits,
    Letters,
    Reliability,
    Delay,
    Precedence,
    Peak,
    Mean,
    Condition,
    SubscriberDigits,
    LocationChanges,
}

/// Each range that a rule speaks of: its name, its lowest and its highest.
pub type Ranges = [(Range, &'static str, i128, i128); 30];

pub const RANGES: Ranges = [
    // "1 to 8 numbered from 1, edition 1"
    (Range::Sets, "number of sets", 1, 8),
    (Range::GivenVolume, "profile's volume limit", 1, 1_000_000_000_000),
    (Range::GivenTime, "profile's time limit", 1, 604_800),
    (Range::GivenChanges, "profile's change limit", 1, 15),
    (Range::Edition, "edition", 1, 65_535),
    (Range::SetVolume, "set's volume limit", 1, 1_000_000_000_000),
    (Range::SetTime, "set's time limit", 1, 604_800),
    (Range::SetChanges, "set's change limit", 1, 15),
    (Range::RecordVolume, "record's volume limit", 1, 1_000_000_000_000),
    (Range::RecordTime, "record's time limit", 1, 604_800),
    (Range::RecordChanges, "record's change limit", 1, 15),
    // "offset from universal time −720..840 minutes", plus 720
    (Range::Zone, "zone", 0, 1560),
    (Range::NodeIdLength, "node ID's length", 0, 20),
    (Range::NodeIdCharacter, "node ID's characters", 0x20, 0x7E),
    (Range::Clock, "clock", 0, 3_155_759_999),
    (Range::Accepted, "accepted count", 0, 1_000_000_000_000_000),
    (Range::Flags, "flags", 0, 3),
    (Range::ImsiDigits, "IMSI's digits", 6, 15),
    (Range::ApnLength, "APN's length", 1, 63),
    // "APN letters, digits, '.', '-'", the letters in lower case
    (Range::Signs, "APN's signs", b'-' as i128, b'.' as i128),
    (Range::Digits, "APN's digits", b'0' as i128, b'9' as i128),
    (Range::Letters, "APN's letters", b'a' as i128, b'z' as i128),
    (Range::Reliability, "reliability", 0, 5),
    (Range::Delay, "delay", 0, 3),
    (Range::Precedence, "precedence", 0, 3),
    (Range::Peak, "peak", 0, 9),
    (Range::Mean, "mean", 0, 18),
    (Range::Condition, "condition", 0, 1),
    (Range::SubscriberDigits, "subscriber's IMSI's digits", 6, 15),
    (Range::LocationChanges, "location changes", 0, 14),
];

pub const QOS: [(Range, &str); 5] = [
    (Range::Reliability, "reliability"),
    (Range::Delay, "delay"),
    (Range::Precedence, "precedence"),
    (Range::Peak, "peak"),
    (Range::Mean, "mean"),
];
const QOS_PARTS: &[&str] = &["reliability", "delay", "precedence", "peak", "mean"];

// ---- the rules ----

/// A rule: its name, its words and its parts, of which each is broken by
/// itself, and the test.
pub struct Rule {
    pub name: &'static str,
    pub words: &'static str,
    pub parts: &'static [&'static str],
    pub test: Test,
}

/// The one part of a rule that has no parts.
pub const WHOLE: &[&str] = &["whole"];

macro_rules! rules {
    ($($name:literal $words:literal $parts:expr, $test:path;)*) => {
        pub const RULES: &[Rule] =
            &[$(Rule { name: $name, words: $words, parts: $parts, test: $test }),*];
    };
}

rules! {
    "number of sets" "Profile in range; 1 to 8 sets" WHOLE, limits::number;
    "profile's limits" "Profile in range; volume limit 1..10^12, time limit 1..604,800, change limit 1..15"
        limits::PARTS, limits::given;
    "profile's unused limits" "limits of the profile that are not used all zero"
        limits::PARTS, limits::given_unused;
    "editions" "each with an edition from 1" WHOLE, limits::editions;
    "sets" "the limits of every set in range" limits::PARTS, limits::sets;
    "unused set" "sets that are not used all zero" limits::SET_PARTS, limits::sets_unused;
    "context's set" "each context's set to be one the node has"
        &["zero", "above"], limits::of_context;
    "record's limits" "the limits of every open record in range"
        limits::PARTS, limits::of_record;
    "offset" "Profile in range; offset -720..840" WHOLE, offset;
    "node ID's length" "Profile in range; node ID of 0..20 characters" WHOLE, node_id_length;
    "node ID's characters" "characters 0x20..0x7E" WHOLE, node_id_characters;
    "node ID's unused octets" "its unused octets zero" WHOLE, node_id_unused;
    "clock" "clock in range" WHOLE, clock;
    "accepted count" "accepted count in range" WHOLE, accepted;
    "names" "active names distinct" WHOLE, names;
    "active" "a slot is active (1) or free (0)" WHOLE, active;
    "free slot" "free slots all zero" FREE_PARTS, free_slot;
    "flags" "stored fields in range: flags 0..3" WHOLE, flags;
    "IMSI" "stored fields in range: IMSI 6..15 digits, all later halves F"
        &["digits", "later halves"], imsi;
    "APN's length" "stored fields in range: n 1..63" WHOLE, apn_length;
    "APN's characters" "stored fields in range: letters, digits, '.', '-', and no capital"
        &["capital", "other"], apn_characters;
    "APN's unused octets" "unused octets all zero" WHOLE, apn_unused;
    "QoS" "stored fields in range: the QoS in force" QOS_PARTS, qos;
    "container's QoS" "stored fields in range: a container's QoS" QOS_PARTS, container_qos;
    "stored offset" "one offset: that of a stored time is the profile's"
        &["opening", "container"], stored_offset;
    "unused place" "unused container places all zero" PLACE_PARTS, unused_place;
    "closed records" "closed records below the accepted count" WHOLE, closed;
    "change count" "container count equals change count" WHOLE, change_count;
    "container count" "and is below the change limit" WHOLE, container_count;
    "conditions" "conditions 0 or 1" WHOLE, conditions;
    "times" "opening <= container times in order <= clock" &[
        "opening, container", "container, container", "container, clock", "opening, clock",
    ], times;
    "QoS between containers" "QoS differs .. exactly after condition 0" &[
        "same after 0, next", "same after 0, running", "other after 1, next",
        "other after 1, running",
    ], qos_between;
    "volumes" "all volumes of the open record sum below the volume limit" WHOLE, volumes;
    "attached" "a place is taken (1) or free (0)" WHOLE, subscribers::attached;
    "free place" "free places of subscribers all zero"
        subscribers::FREE_PARTS, subscribers::free_place;
    "unused change" "unused changes all zero"
        subscribers::CHANGE_PARTS, subscribers::unused_change;
    "IMSIs" "IMSIs of subscribers distinct" WHOLE, subscribers::imsis;
    "subscriber's IMSI" "fields in range: IMSI 6..15 digits, all later halves F"
        &["digits", "later halves"], subscribers::imsi;
    "subscriber's offset" "one offset: that of a stored time is the profile's"
        &["opening", "change"], subscribers::stored_offset;
    "subscriber's closed records" "closed records below the accepted count"
        WHOLE, subscribers::closed;
    "location changes" "at most 14 changes" WHOLE, subscribers::change_count;
    "places" "A change to the same place is none, in .. sound nodes too"
        &["opening, change", "change, change"], subscribers::places;
    "subscriber's times" "opening, changes and clock in order" &[
        "opening, change", "change, change", "change, clock", "opening, clock",
    ], subscribers::times;
}

/// The test of a rule: it says the parts that a node breaks.
pub type Test = fn(&Stored, &mut Found);

/// What a node breaks: the rules' places in the list, and their parts.
pub struct Found {
    ranges: Ranges,
    rule: usize,
    pub broken: Vec<(usize, &'static str)>,
}

/// Every rule that the node breaks, with the part of it, each once.
pub fn broken(node: &Stored) -> Vec<(usize, &'static str)> {
    broken_by(node, RANGES, |rule| rule.test)
}

/// The same by other ranges, or by another test of some rule.
pub fn broken_by(
    node: &Stored,
    ranges: Ranges,
    test: impl Fn(&Rule) -> Test,
) -> Vec<(usize, &'static str)> {
    let mut found = Found { ranges, rule: 0, broken: Vec::new() };
    for (at, rule) in RULES.iter().enumerate() {
        found.rule = at;
        test(rule)(node, &mut found);
    }
    found.broken
}

pub fn is_sound(node: &Stored) -> bool {
    broken(node).is_empty()
}

impl Found {
    pub fn unless(&mut self, part: &'static str, kept: bool) {
        let said = (self.rule, part);
        if !kept && !self.broken.contains(&said) {
            self.broken.push(said);
        }
    }

    pub fn in_range(&self, range: Range, value: impl Into<i128>) -> bool {
        let (_, _, low, high) = self.ranges[range as usize];
        (low..=high).contains(&value.into())
    }
}

/// The octets from a length on are zero.
fn unused_zero(octets: &[u8], length: u64) -> bool {
    octets[within(length, octets.len())..].iter().all(|octet| *octet == 0)
}

// ---- "Profile in range; clock and accepted count in range" ----

fn offset(node: &Stored, found: &mut Found) {
    found.unless("whole", found.in_range(Range::Zone, node.profile.zone));
}

fn node_id_length(node: &Stored, found: &mut Found) {
    found.unless("whole", found.in_range(Range::NodeIdLength, node.profile.nodelen));
}

fn node_id_characters(node: &Stored, found: &mut Found) {
    let id = &node.profile.nodeid[..within(node.profile.nodelen, NODE_ID)];
    found.unless("whole", id.iter().all(|c| found.in_range(Range::NodeIdCharacter, *c)));
}

fn node_id_unused(node: &Stored, found: &mut Found) {
    found.unless("whole", unused_zero(&node.profile.nodeid, node.profile.nodelen));
}

fn clock(node: &Stored, found: &mut Found) {
    found.unless("whole", found.in_range(Range::Clock, node.clock));
}

fn accepted(node: &Stored, found: &mut Found) {
    found.unless("whole", found.in_range(Range::Accepted, node.accepted));
}

// ---- "active names distinct" ----

fn names(node: &Stored, found: &mut Found) {
    let names: Vec<Name> = node.active().map(Context::name).collect();
    let distinct = names.iter().enumerate().all(|(at, name)| !names[..at].contains(name));
    found.unless("whole", distinct);
}

// ---- "free slots .. all zero" ----

fn active(node: &Stored, found: &mut Found) {
    found.unless("whole", node.contexts.iter().all(|c| c.active <= 1));
}

/// The fields of a container, each with whether it is zero.
const PLACE_PARTS: &[&str] = &[
    "reliability",
    "delay",
    "precedence",
    "peak",
    "mean",
    "uplink",
    "downlink",
    "condition",
    "seconds",
    "zone",
];

fn place_zero(container: &Container, found: &mut Found) {
    let Container { qos, uplink, downlink, condition, time } = container;
    for ((_, part), value) in QOS.iter().zip(qos) {
        found.unless(part, *value == 0);
    }
    found.unless("uplink", *uplink == 0);
    found.unless("downlink", *downlink == 0);
    found.unless("condition", *condition == 0);
    found.unless("seconds", time.seconds == 0);
    found.unless("zone", time.zone == 0);
}

const FREE_PARTS: &[&str] = &[
    "flags",
    "set",
    "id",
    "ggsn",
    "imsi",
    "apn",
    "apnlen",
    "pdptype",
    "address",
    "qos",
    "volume limit",
    "time limit",
    "change limit",
    "running uplink",
    "running downlink",
    "opening's seconds",
    "opening's zone",
    "changes",
    "reliability",
    "delay",
    "precedence",
    "peak",
    "mean",
    "uplink",
    "downlink",
    "condition",
    "seconds",
    "zone",
    "count",
    "closed",
];

fn free_slot(node: &Stored, found: &mut Found) {
    for context in node.contexts.iter().filter(|c| c.active == 0) {
        found.unless("flags", context.flags == 0);
        found.unless("set", context.set == 0);
        found.unless("id", context.id == 0);
        found.unless("ggsn", context.ggsn == 0);
        found.unless("imsi", context.imsi == [0; 8]);
        found.unless("apn", context.apn == [0; APN]);
        found.unless("apnlen", context.apnlen == 0);
        found.unless("pdptype", context.pdptype == 0);
        found.unless("address", context.address == 0);
        found.unless("qos", context.qos == [0; 5]);
        found.unless("volume limit", context.limits.volume == 0);
        found.unless("time limit", context.limits.seconds == 0);
        found.unless("change limit", context.limits.changes == 0);
        found.unless("running uplink", context.uplink == 0);
        found.unless("running downlink", context.downlink == 0);
        found.unless("opening's seconds", context.opening.seconds == 0);
        found.unless("opening's zone", context.opening.zone == 0);
        found.unless("changes", context.changes == 0);
        for container in &context.containers {
            place_zero(container, found);
        }
        found.unless("count", context.count == 0);
        found.unless("closed", context.closed == 0);
    }
}

// ---- "stored fields in range", "unused octets and unused container places all zero" ----

fn flags(node: &Stored, found: &mut Found) {
    found.unless("whole", node.active().all(|c| found.in_range(Range::Flags, c.flags)));
}

/// "IMSI 6..15 digits, low half first, all later halves F"
fn imsi(node: &Stored, found: &mut Found) {
    for context in node.active() {
        imsi_of(&context.imsi, Range::ImsiDigits, found);
    }
}

pub fn imsi_of(imsi: &[u8; 8], range: Range, found: &mut Found) {
    let halves: Vec<u8> = imsi.iter().flat_map(|o| [o & 15, o >> 4]).collect();
    let digits = halves.iter().take_while(|half| **half < 10).count();
    let mut later = halves[digits..].iter();
    found.unless("digits", found.in_range(range, digits as u8));
    found.unless("later halves", later.all(|half| *half == 15));
}

fn apn_length(node: &Stored, found: &mut Found) {
    found.unless("whole", node.active().all(|c| found.in_range(Range::ApnLength, c.apnlen)));
}

/// W5: "A stored capital makes a node unsound".
fn apn_characters(node: &Stored, found: &mut Found) {
    let classes = [Range::Signs, Range::Digits, Range::Letters];
    for c in node.active().flat_map(Context::apn) {
        let part = if c.is_ascii_uppercase() { "capital" } else { "other" };
        found.unless(part, classes.iter().any(|class| found.in_range(*class, *c)));
    }
}

fn apn_unused(node: &Stored, found: &mut Found) {
    found.unless("whole", node.active().all(|c| unused_zero(&c.apn, c.apnlen)));
}

fn qos_in_range(qos: &Qos, found: &mut Found) {
    for ((range, part), value) in QOS.iter().zip(qos) {
        found.unless(part, found.in_range(*range, *value));
    }
}

fn qos(node: &Stored, found: &mut Found) {
    for context in node.active() {
        qos_in_range(&context.qos, found);
    }
}

fn container_qos(node: &Stored, found: &mut Found) {
    for container in node.active().flat_map(Context::used) {
        qos_in_range(&container.qos, found);
    }
}

/// The profile has one offset, and a stored time keeps its own beside it.
fn stored_offset(node: &Stored, found: &mut Found) {
    for context in node.active() {
        found.unless("opening", context.opening.zone == node.profile.zone);
        for container in context.used() {
            found.unless("container", container.time.zone == node.profile.zone);
        }
    }
}

fn unused_place(node: &Stored, found: &mut Found) {
    for context in node.active() {
        for container in context.unused() {
            place_zero(container, found);
        }
    }
}

// ---- "Per context" ----

/// "closed records below the accepted count"
fn closed(node: &Stored, found: &mut Found) {
    found.unless("whole", node.active().all(|c| c.closed < node.accepted));
}

/// "container count equals change count"
fn change_count(node: &Stored, found: &mut Found) {
    found.unless("whole", node.active().all(|c| c.count == u64::from(c.changes)));
}

/// "and is below the change limit"; W6: "the open record holds its limits, the
/// sound-node rules read those"
fn container_count(node: &Stored, found: &mut Found) {
    found.unless("whole", node.active().all(|c| c.count < u64::from(c.limits.changes)));
}

/// "conditions 0 or 1"
fn conditions(node: &Stored, found: &mut Found) {
    let mut used = node.active().flat_map(Context::used);
    found.unless("whole", used.all(|c| found.in_range(Range::Condition, c.condition)));
}

/// "opening ≤ container times in order ≤ clock"
fn times(node: &Stored, found: &mut Found) {
    for context in node.active() {
        let opening = context.opening.seconds;
        let times: Vec<u32> = context.used().iter().map(|c| c.time.seconds).collect();
        for pair in times.windows(2) {
            found.unless("container, container", pair[0] <= pair[1]);
        }
        match times[..] {
            [] => found.unless("opening, clock", opening <= node.clock),
            [first, ..] => {
                let last = times[times.len() - 1];
                found.unless("opening, container", opening <= first);
                found.unless("container, clock", last <= node.clock);
            }
        }
    }
}

/// "QoS differs from one container to the next, or to the running one, exactly
/// after condition 0"
fn qos_between(node: &Stored, found: &mut Found) {
    for context in node.active() {
        let used = context.used();
        for (at, container) in used.iter().enumerate() {
            let next = used.get(at + 1).map_or(context.qos, |next| next.qos);
            let same = container.qos == next;
            let (after_0, after_1) = if at + 1 < used.len() {
                ("same after 0, next", "other after 1, next")
            } else {
                ("same after 0, running", "other after 1, running")
            };
            if container.condition == 0 {
                found.unless(after_0, !same);
            } else {
                found.unless(after_1, same);
            }
        }
    }
}

/// "all volumes of the open record sum below the volume limit", its own
fn volumes(node: &Stored, found: &mut Found) {
    let mut active = node.active();
    found.unless("whole", active.all(|c| record_volume(c) < u128::from(c.limits.volume)));
}

/// The volumes of a context's open record.
pub fn record_volume(context: &Context) -> u128 {
    let ended: u128 =
        context.used().iter().map(|c| u128::from(c.uplink) + u128::from(c.downlink)).sum();
    ended + u128::from(context.uplink) + u128::from(context.downlink)
}
