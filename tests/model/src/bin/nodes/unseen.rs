//! Faults in the test of a sound node: what a rule does not see, or sees
//! otherwise than it is stored.

use crate::faults::See;
use crate::sound::record_volume;
use crate::stored::{
    within, Change, Container, Context, LimitSet, Limits, Place, Stored, Subscriber, CHANGES, FREE,
    NODE_ID, PLACES, SETS, SLOTS, SUBSCRIBERS,
};

/// A name, what is wrong, the rule that sees so (or every one), and what it
/// sees.
type Unseen = (&'static str, &'static str, Option<&'static str>, See);

pub const UNSEEN: &[Unseen] = &[
    ("first-slot-unseen", "slot 0 is not looked at", None, |n| n.contexts[0] = FREE),
    ("last-slot-unseen", "slot 15 is not looked at", None, |n| n.contexts[SLOTS - 1] = FREE),
    ("any-active", "any active but 0 counts as 1", None, |n| {
        n.contexts.iter_mut().for_each(|c| c.active = c.active.min(1));
    }),
    ("first-octet-unseen", "the first unused octet is not looked at", None, |n| {
        unused_octets(n, |octets| octets.first_mut());
    }),
    ("last-octet-unseen", "the last unused octet is not looked at", None, |n| {
        unused_octets(n, |octets| octets.last_mut());
    }),
    ("capital-a-unseen", "a stored A is seen as a", CHARACTERS, |n| {
        each(n, |c| c.apn = c.apn.map(|c| if c == b'A' { b'a' } else { c }));
    }),
    ("capital-z-unseen", "a stored Z is seen as z", CHARACTERS, |n| {
        each(n, |c| c.apn = c.apn.map(|c| if c == b'Z' { b'z' } else { c }));
    }),
    ("first-capital-unseen", "a capital is not seen as an APN's first octet", CHARACTERS, |n| {
        each(n, |c| c.apn[0].make_ascii_lowercase());
    }),
    ("last-capital-unseen", "a capital is not seen as an APN's last octet", CHARACTERS, |n| {
        each(n, |c| {
            let last = c.apn().len().saturating_sub(1);
            c.apn[last].make_ascii_lowercase();
        });
    }),
    ("first-place-unseen", "the first unused container place is not looked at", None, |n| {
        unused_places(n, |places| places.first_mut());
    }),
    ("last-place-unseen", "the last unused container place is not looked at", None, |n| {
        unused_places(n, |places| places.last_mut());
    }),
    ("names-by-id", "names are compared by charging ID alone", Some("names"), |n| {
        each(n, |c| c.ggsn = 0);
    }),
    ("names-by-ggsn", "names are compared by GGSN alone", Some("names"), |n| {
        each(n, |c| c.id = 0);
    }),
    ("names-but-first", "the first name is compared with none", Some("names"), |n| {
        if let Some(first) = n.contexts.iter_mut().find(|c| c.active == 1) {
            *first = FREE;
        }
    }),
    (
        "closed-may-meet",
        "closed records may meet the accepted count",
        Some("closed records"),
        |n| {
            n.accepted = n.accepted.saturating_add(1);
        },
    ),
    (
        "closed-two-below",
        "closed records must be two below the accepted count",
        Some("closed records"),
        |n| n.accepted = n.accepted.saturating_sub(1),
    ),
    (
        "more-changes",
        "the change count may be above the container count",
        Some("change count"),
        |n| each(n, |c| c.changes = u64::from(c.changes).min(c.count) as u8),
    ),
    (
        "fewer-changes",
        "the change count may be below the container count",
        Some("change count"),
        |n| each(n, |c| c.count = c.count.min(c.changes.into())),
    ),
    (
        "count-may-meet",
        "the container count may meet the change limit",
        Some("container count"),
        |n| each(n, |c| c.limits.changes = c.limits.changes.saturating_add(1)),
    ),
    (
        "count-two-below",
        "the container count must be two below the change limit",
        Some("container count"),
        |n| each(n, |c| c.limits.changes = c.limits.changes.max(2) - 1),
    ),
    ("times-strict", "equal times of two containers are out of order", Some("times"), |n| {
        each(n, |c| {
            for at in (1..c.used().len()).rev() {
                if c.containers[at - 1].time.seconds == c.containers[at].time.seconds {
                    c.containers[at - 1].time.seconds += 1;
                }
            }
        });
    }),
    ("qos-but-mean", "profiles that differ in mean alone are the same", BETWEEN, |n| {
        each(n, |c| level(c, 4));
    }),
    ("qos-but-reliability", "profiles that differ in reliability are the same", BETWEEN, |n| {
        each(n, |c| level(c, 0));
    }),
    ("running-only", "the volumes of ended containers are not summed", VOLUMES, |n| {
        each(n, |c| c.containers.iter_mut().for_each(|c| (c.uplink, c.downlink) = (0, 0)));
    }),
    ("ended-only", "the running volumes are not summed", VOLUMES, |n| {
        each(n, |c| (c.uplink, c.downlink) = (0, 0));
    }),
    ("uplink-only", "the downlink is not summed", VOLUMES, |n| {
        each(n, |c| {
            c.downlink = 0;
            c.containers.iter_mut().for_each(|c| c.downlink = 0);
        });
    }),
    ("downlink-only", "the uplink is not summed", VOLUMES, |n| {
        each(n, |c| {
            c.uplink = 0;
            c.containers.iter_mut().for_each(|c| c.uplink = 0);
        });
    }),
    ("sum-wraps", "the sum of volumes is taken in 64 bits", VOLUMES, |n| {
        each(n, |c| {
            (c.uplink, c.downlink) = (record_volume(c) as u64, 0);
            c.containers.iter_mut().for_each(|c| (c.uplink, c.downlink) = (0, 0));
        });
    }),
    ("volumes-may-meet", "the sum of volumes may meet the limit", VOLUMES, |n| {
        each(n, |c| c.limits.volume = c.limits.volume.saturating_add(1));
    }),
    ("volumes-two-below", "the sum of volumes must be two below the limit", VOLUMES, |n| {
        each(n, |c| c.limits.volume = c.limits.volume.max(2) - 1);
    }),
    ("count-by-set", "containers are counted against the set's change limit", COUNTED, |n| {
        by_set(n, |own, set| own.changes = set.changes);
    }),
    (
        "count-by-higher",
        "the higher of the record's and the set's change limit counts",
        COUNTED,
        |n| {
            by_set(n, |own, set| own.changes = own.changes.max(set.changes));
        },
    ),
    (
        "count-by-lower",
        "the lower of the record's and the set's change limit counts",
        COUNTED,
        |n| {
            by_set(n, |own, set| own.changes = own.changes.min(set.changes));
        },
    ),
    ("count-by-profile", "containers are counted against the profile's limit", COUNTED, |n| {
        by_profile(n, |own, given| own.changes = given.changes);
    }),
    ("volumes-by-set", "volumes are summed against the set's volume limit", VOLUMES, |n| {
        by_set(n, |own, set| own.volume = set.volume);
    }),
    (
        "volumes-by-higher",
        "the higher of the record's and the set's volume limit counts",
        VOLUMES,
        |n| {
            by_set(n, |own, set| own.volume = own.volume.max(set.volume));
        },
    ),
    (
        "volumes-by-lower",
        "the lower of the record's and the set's volume limit counts",
        VOLUMES,
        |n| {
            by_set(n, |own, set| own.volume = own.volume.min(set.volume));
        },
    ),
    ("volumes-by-profile", "volumes are summed against the profile's limit", VOLUMES, |n| {
        by_profile(n, |own, given| own.volume = given.volume);
    }),
    ("own-limits-unseen", "the limits of an open record must be its set's", OWN, |n| {
        by_set(n, |own, set| {
            if *own != *set {
                *own = Limits::default();
            }
        });
    }),
    ("own-limits-of-set", "the set's limits are looked at, not the record's own", OWN, |n| {
        by_set(n, |own, set| *own = *set);
    }),
    ("set-0-seen-as-1", "a context's set 0 is seen as 1", OF_SET, |n| {
        each(n, |c| c.set = c.set.max(1));
    }),
    ("set-after-last", "a context's set may be the one after the last", OF_SET, |n| {
        n.profile.sets = n.profile.sets.saturating_add(1);
    }),
    ("set-of-eight", "a context's set may be any up to 8", OF_SET, |n| n.profile.sets = 8),
    ("set-below-last", "a context's set may not be the last", OF_SET, |n| {
        n.profile.sets = n.profile.sets.saturating_sub(1);
    }),
    ("first-set-unseen", "set 1 is not looked at", None, |n| {
        if n.sets() > 0 {
            n.settings[0] = GOOD_SET;
        }
    }),
    ("last-set-unseen", "the last of several sets is not looked at", None, |n| {
        if n.sets() > 1 {
            n.settings[n.sets() - 1] = GOOD_SET;
        }
    }),
    ("given-first-unseen", "the profile's first limits are not looked at", None, |n| {
        if n.sets() > 0 {
            n.profile.limits[0] = GOOD_SET.limits;
        }
    }),
    ("given-last-unseen", "the profile's last limits are not looked at", None, |n| {
        if n.sets() > 1 {
            n.profile.limits[n.sets() - 1] = GOOD_SET.limits;
        }
    }),
    ("unused-first-unseen", "the first set that is not used is not looked at", None, |n| {
        if n.sets() < SETS {
            n.settings[n.sets()] = LimitSet::default();
        }
    }),
    ("unused-last-unseen", "the eighth set is not looked at where it is not used", None, |n| {
        if n.sets() < SETS {
            n.settings[SETS - 1] = LimitSet::default();
        }
    }),
    (
        "given-unused-unseen",
        "the profile's eighth limits, not used, are not looked at",
        None,
        |n| {
            if n.sets() < SETS {
                n.profile.limits[SETS - 1] = Limits::default();
            }
        },
    ),
    ("edition-of-profile", "a set of edition 1 must be the profile's", Some("sets"), |n| {
        for (set, given) in n.settings.iter_mut().zip(&n.profile.limits) {
            if set.edition == 1 && set.limits != *given {
                set.limits = Limits::default();
            }
        }
    }),
    ("first-subscriber-unseen", "the first place of a subscriber is not looked at", None, |n| {
        n.subscribers[0] = Subscriber::default();
    }),
    ("last-subscriber-unseen", "the last place of a subscriber is not looked at", None, |n| {
        n.subscribers[SUBSCRIBERS - 1] = Subscriber::default();
    }),
    ("any-attached", "any active but 0 of a subscriber counts as 1", None, |n| {
        n.subscribers.iter_mut().for_each(|s| s.active = s.active.min(1));
    }),
    ("first-change-unseen", "the first unused change is not looked at", None, |n| {
        unused_changes(n, |changes| changes.first_mut());
    }),
    ("last-change-unseen", "the last unused change is not looked at", None, |n| {
        unused_changes(n, |changes| changes.last_mut());
    }),
    ("fifteenth-unseen", "the change after the fourteenth is not looked at", None, |n| {
        n.subscribers.iter_mut().for_each(|s| s.changes[CHANGES - 1] = Change::default());
    }),
    ("imsis-in-part", "IMSIs are compared in their first four octets", Some("IMSIs"), |n| {
        each_subscriber(n, |s| s.imsi[4..].fill(0));
    }),
    ("imsis-but-first", "the first IMSI is compared with none", Some("IMSIs"), |n| {
        if let Some(first) = n.subscribers.iter_mut().find(|s| s.active == 1) {
            *first = Subscriber::default();
        }
    }),
    ("imsis-of-contexts", "an IMSI must be no context's", Some("IMSIs"), |n| {
        let context = n.active().next().map(|context| context.imsi);
        if let (Some(imsi), Some(at)) = (context, n.places(0).first()) {
            n.subscribers[*at] = Subscriber { active: 1, imsi, ..Subscriber::default() };
        }
    }),
    ("attached-closed-may-meet", "closed records may meet the accepted count", CLOSED, |n| {
        n.accepted = n.accepted.saturating_add(1);
    }),
    ("attached-closed-two-below", "closed records must be two below the count", CLOSED, |n| {
        n.accepted = n.accepted.saturating_sub(1);
    }),
    ("places-by-lac", "places are compared by LAC alone", Some("places"), |n| {
        each_place(n, |place| place.rac = 0);
    }),
    ("places-by-rac", "places are compared by RAC alone", Some("places"), |n| {
        each_place(n, |place| place.lac = 0);
    }),
    ("change-times-strict", "equal times of two changes are out of order", TIMES, |n| {
        each_subscriber(n, |s| {
            for at in (1..s.used().len()).rev() {
                if s.changes[at - 1].time.seconds == s.changes[at].time.seconds {
                    s.changes[at - 1].time.seconds += 1;
                }
            }
        });
    }),
    ("change-at-opening", "a change at the time of the opening is out of order", TIMES, |n| {
        each_subscriber(n, |s| {
            if s.used().first().is_some_and(|first| first.time.seconds == s.opening.seconds) {
                s.opening.seconds += 1;
            }
        });
    }),
    ("attached-limit", "the changes must be below the change limit of set 1", COUNT, |n| {
        let limit = u64::from(n.settings[0].limits.changes);
        each_subscriber(n, |s| s.count += if s.count >= limit { CHANGES as u64 } else { 0 });
    }),
];

const COUNTED: Option<&str> = Some("container count");
const OWN: Option<&str> = Some("record's limits");
const OF_SET: Option<&str> = Some("context's set");

/// Limits that break nothing.
const GOOD_SET: LimitSet =
    LimitSet { edition: 1, limits: Limits { volume: 1, seconds: 1, changes: 1 } };

const CHARACTERS: Option<&str> = Some("APN's characters");

const CLOSED: Option<&str> = Some("subscriber's closed records");
const TIMES: Option<&str> = Some("subscriber's times");
const COUNT: Option<&str> = Some("location changes");

const BETWEEN: Option<&str> = Some("QoS between containers");
const VOLUMES: Option<&str> = Some("volumes");

fn each(node: &mut Stored, change: impl Fn(&mut Context)) {
    node.contexts.iter_mut().filter(|c| c.active == 1).for_each(change);
}

/// The own limits of each open record, with those of its set that are in force.
fn by_set(node: &mut Stored, change: impl Fn(&mut Limits, &Limits)) {
    let settings = node.settings;
    each(node, |c| {
        if let Some(set) = settings.get(usize::from(c.set).wrapping_sub(1)) {
            change(&mut c.limits, &set.limits);
        }
    });
}

/// The same with those that the profile gave.
fn by_profile(node: &mut Stored, change: impl Fn(&mut Limits, &Limits)) {
    let given = node.profile.limits;
    each(node, |c| {
        if let Some(limits) = given.get(usize::from(c.set).wrapping_sub(1)) {
            change(&mut c.limits, limits);
        }
    });
}

fn each_subscriber(node: &mut Stored, change: impl Fn(&mut Subscriber)) {
    node.subscribers.iter_mut().filter(|s| s.active == 1).for_each(change);
}

fn each_place(node: &mut Stored, change: impl Fn(&mut Place)) {
    each_subscriber(node, |s| {
        change(&mut s.place);
        s.changes.iter_mut().for_each(|c| change(&mut c.place));
    });
}

/// Clears one unused change of each subscriber.
fn unused_changes(node: &mut Stored, which: fn(&mut [Change]) -> Option<&mut Change>) {
    each_subscriber(node, |s| {
        let from = within(s.count, CHANGES);
        if let Some(change) = which(&mut s.changes[from..]) {
            *change = Change::default();
        }
    });
}

/// Clears one unused octet of the node ID and of each APN.
fn unused_octets(node: &mut Stored, which: fn(&mut [u8]) -> Option<&mut u8>) {
    let clear = |octets: &mut [u8], length: u64| {
        let from = within(length, octets.len());
        if let Some(octet) = which(&mut octets[from..]) {
            *octet = 0;
        }
    };
    clear(&mut node.profile.nodeid[..NODE_ID], node.profile.nodelen);
    each(node, |c| clear(&mut c.apn, c.apnlen));
}

/// Clears one unused container place of each context.
fn unused_places(node: &mut Stored, which: fn(&mut [Container]) -> Option<&mut Container>) {
    each(node, |c| {
        let from = within(c.count, PLACES);
        if let Some(place) = which(&mut c.containers[from..]) {
            *place = Container::default();
        }
    });
}

/// All profiles of a context have the same level here.
fn level(context: &mut Context, at: usize) {
    context.qos[at] = 0;
    context.containers.iter_mut().for_each(|c| c.qos[at] = 0);
}
