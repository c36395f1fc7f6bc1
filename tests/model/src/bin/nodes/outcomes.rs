//! Faults in what a call answers and leaves.

use crate::cases::{Case, Lent, Outcome, GUARD};
use crate::expected::{of_sound, refused};
use crate::faults::Change;
use crate::sound::is_sound;
use crate::stored::{Context, LimitSet, Stored};
use charging_model::batch::Batch;
use charging_model::clock::LAST_SECOND;
use charging_model::event::{self, What};
use charging_model::node::MOST_ACCEPTED;
use charging_model::step;

/// A name, what is wrong, and what becomes of the outcome of an event.
pub const OUTCOMES: &[(&str, &str, Change)] = &[
    ("short-before-13", "1 is answered before 13", |o, case| {
        if o.answer == 13 && row(case, 1) {
            o.answer = 1;
        }
    }),
    ("mark-before-13", "2 is answered before 13", |o, case| {
        if o.answer == 13 && !row(case, 1) && row(case, 2) {
            o.answer = 2;
        }
    }),
    ("unsound-cleaned", "after 13 free slots and unused octets and places are zero", |o, case| {
        if o.answer == 13 {
            o.node = Stored::store(&case.node.view()).octets();
        }
    }),
    ("unsound-counted", "13 counts as an accepted event", |o, case| {
        if o.answer == 13 {
            o.node = with(case, |node| node.accepted = node.accepted.wrapping_add(1));
        }
    }),
    ("unsound-clock", "13 moves the clock", |o, case| {
        if o.answer == 13 && event(case).len() >= event::HEAD {
            o.node = with(case, |node| node.clock = event::time(event(case)));
        }
    }),
    (
        "unsound-lowered",
        "stored capitals are lowered, and no 13 is answered for them",
        |o, case| {
            let mut node = case.node.clone();
            node.contexts.iter_mut().for_each(|c| c.apn.make_ascii_lowercase());
            if o.answer == 13 && is_sound(&node) {
                *o = of_sound(&Case { node, lent: case.lent.clone(), ..*case });
            }
        },
    ),
    ("refused-written", "a refusal has a written length of 1", |o, _| {
        if o.answer != 0 {
            o.written = 1;
        }
    }),
    ("refused-buffer", "a refusal clears the buffer's first octet", |o, case| {
        if o.answer != 0 && case.room > 0 {
            o.area[GUARD] = 0;
        }
    }),
    ("rest-cleared", "the octet after the output is zero", |o, case| {
        if o.answer == 0 && (o.written as usize) < case.room {
            o.area[GUARD + o.written as usize] = 0;
        }
    }),
    ("rest-beyond", "the octet after the buffer is zero", |o, case| {
        if o.answer == 0 {
            o.area[GUARD + case.room] = 0;
        }
    }),
    ("never-7", "7 is never answered", |o, case| {
        if o.answer == 7 {
            *o = of_sound(&with_accepted(case, case.node.accepted - 1));
        }
    }),
    ("early-7", "7 is answered one event too early", |o, case| {
        if matches!(o.answer, 0 | 8..=11) && case.node.accepted == MOST_ACCEPTED - 1 {
            *o = refused(case, 7);
        }
    }),
    ("late-7", "7 is answered after 8, 9 and 10", |o, case| {
        if o.answer == 7 {
            o.answer = [8, 9, 10].into_iter().find(|number| row(case, *number)).unwrap_or(7);
        }
    }),
    ("late-7-of-subscribers", "7 is answered after 15, 16 and 17", |o, case| {
        if o.answer == 7 {
            o.answer = [16, 15, 17].into_iter().find(|number| row(case, *number)).unwrap_or(7);
        }
    }),
    (
        "contexts-alone-unsound",
        "13 for a subscriber is not answered to a context's event",
        |o, case| {
            let mut other = case.node.clone();
            other.subscribers = Stored::zero().subscribers;
            let kind = event(case).get(2).copied().unwrap_or_default();
            if o.answer == 13 && is_sound(&other) && !event::of_subscriber(kind) {
                o.answer = of_sound(case).answer;
            }
        },
    ),
    (
        "subscribers-alone-unsound",
        "13 for a context is not answered to a subscriber's event",
        |o, case| {
            let mut other = case.node.clone();
            other.contexts = Stored::zero().contexts;
            let kind = event(case).get(2).copied().unwrap_or_default();
            if o.answer == 13 && is_sound(&other) && event::of_subscriber(kind) {
                o.answer = of_sound(case).answer;
            }
        },
    ),
    ("attached-clock", "15, 16 and 17 move the clock", |o, case| {
        if matches!(o.answer, 15..=17) {
            o.node = with(case, |node| node.clock = event::time(event(case)));
        }
    }),
    ("attached-counted", "15, 16 and 17 count as accepted events", |o, case| {
        if matches!(o.answer, 15..=17) {
            o.node = with(case, |node| node.accepted += 1);
        }
    }),
    ("fifteenth-kept", "after 19 the fifteenth change stays where it was stored", |o, case| {
        if o.answer == 0 && case.node.attached().any(|s| s.count == 14) && o.written > 300 {
            after(o, |node| {
                for s in node.subscribers.iter_mut().filter(|s| s.count == 0) {
                    s.changes[14].place = s.place;
                }
            });
        }
    }),
    ("highest-place", "attaching takes the highest free place", |o, case| {
        if o.answer == 0 && event::kind(event(case)) == event::ATTACH {
            let free = case.node.places(0);
            after(o, |node| node.subscribers.swap(free[0], free[free.len() - 1]));
        }
    }),
    ("detached-kept", "a place that comes free keeps its IMSI", |o, case| {
        if o.answer == 0 && event::kind(event(case)) == event::DETACH {
            after(o, |node| {
                for (now, before) in node.subscribers.iter_mut().zip(&case.node.subscribers) {
                    if now.active == 0 && before.active == 1 {
                        now.imsi = before.imsi;
                    }
                }
            });
        }
    }),
    ("late-7-of-sets", "7 is answered after 18 and 19", |o, case| {
        if o.answer == 7 {
            o.answer = [18, 19].into_iter().find(|number| row(case, *number)).unwrap_or(7);
        }
    }),
    ("sets-clock", "18 and 19 move the clock", |o, case| {
        if matches!(o.answer, 18 | 19) {
            o.node = with(case, |node| node.clock = event::time(event(case)));
        }
    }),
    ("sets-counted", "18 and 19 count as accepted events", |o, case| {
        if matches!(o.answer, 18 | 19) {
            o.node = with(case, |node| node.accepted += 1);
        }
    }),
    ("sets-refused", "a replacement refused with 19 replaces the set all the same", |o, case| {
        if o.answer == 19 {
            let (set, next) = replacement(case);
            o.node = with(case, |node| node.settings[set] = next);
        }
    }),
    ("last-edition-wraps", "edition 0 follows 65,535", |o, case| {
        if o.answer == 19 && case.room > 0 {
            let (set, next) = replacement(case);
            let wraps = case.node.settings[set].edition == 65_535 && next.edition == 0;
            o.answer = if wraps { 0 } else { 19 };
        }
    }),
    ("replaced-uncounted", "a replacement does not count as an accepted event", |o, case| {
        if o.answer == 0 && event::kind(event(case)) == event::REPLACE {
            after(o, |node| node.accepted = case.node.accepted);
        }
    }),
    ("replaced-open", "a replacement changes the limits of the set's open records", |o, case| {
        if o.answer == 0 && event::kind(event(case)) == event::REPLACE {
            let (set, next) = replacement(case);
            after(o, |node| {
                let of_set = |c: &&mut Context| c.active == 1 && usize::from(c.set) == set + 1;
                node.contexts.iter_mut().filter(of_set).for_each(|c| c.limits = next.limits);
            });
        }
    }),
    ("replaced-given", "a replacement changes the profile too", |o, case| {
        if o.answer == 0 && event::kind(event(case)) == event::REPLACE {
            let (set, next) = replacement(case);
            after(o, |node| node.profile.limits[set] = next.limits);
        }
    }),
    ("next-by-profile", "the next record takes the profile's limits", |o, case| {
        if o.answer == 0 && o.written > 0 {
            after(o, |node| {
                let given = node.profile.limits;
                for (now, before) in node.contexts.iter_mut().zip(&case.node.contexts) {
                    if now.active == 1 && now.closed > before.closed {
                        now.limits = given[usize::from(now.set) - 1];
                    }
                }
            });
        }
    }),
    ("released-set-kept", "a slot that comes free keeps its set", |o, case| {
        if o.answer == 0 && event::kind(event(case)) == event::RELEASE {
            freed(o, case, |now, before| now.set = before.set);
        }
    }),
    ("released-limits-kept", "a slot that comes free keeps its limits", |o, case| {
        if o.answer == 0 && event::kind(event(case)) == event::RELEASE {
            freed(o, case, |now, before| now.limits = before.limits);
        }
    }),
    ("hasty-7", "7 is answered before 6", |o, case| {
        if o.answer == 6 && case.node.accepted == MOST_ACCEPTED {
            o.answer = 7;
        }
    }),
    ("clock-7", "7 moves the clock", |o, case| {
        if o.answer == 7 {
            o.node = with(case, |node| node.clock = event::time(event(case)));
        }
    }),
];

/// The same for the outcome of a batch.
pub const OF_BATCHES: &[(&str, &str, Change)] = &[
    ("batch-odd-before-13", "14 is answered before 13", |o, case| {
        if o.answer == 13 && numbers(case).len() % 2 != 0 {
            o.answer = 14;
        }
    }),
    ("batch-empty-before-13", "an empty list is 0 on an unsound node too", |o, case| {
        if o.answer == 13 && numbers(case).is_empty() {
            o.answer = 0;
        }
    }),
    ("batch-unsound-cleaned", "after 13 free slots and what is unused are zero", |o, case| {
        if o.answer == 13 {
            o.node = Stored::store(&case.node.view()).octets();
        }
    }),
    ("batch-unsound-clock", "13 moves the clock", |o, case| {
        if o.answer == 13 {
            o.node = with(case, |node| node.clock = batch(case).time);
        }
    }),
    ("batch-subscribers-unseen", "13 for a subscriber is not answered to a batch", |o, case| {
        let mut other = case.node.clone();
        other.subscribers = Stored::zero().subscribers;
        if o.answer == 13 && is_sound(&other) {
            o.answer = of_sound(case).answer;
        }
    }),
    ("batch-subscribers-cleared", "a batch frees the first place of a subscriber", |o, _| {
        if o.applied > 0 {
            after(o, |node| node.subscribers[0] = Default::default());
        }
    }),
    ("batch-limits-kept", "after a closing the next record has the limits before", |o, case| {
        if o.written > 0 {
            after(o, |node| {
                for (now, before) in node.contexts.iter_mut().zip(&case.node.contexts) {
                    now.limits = before.limits;
                }
            });
        }
    }),
    ("batch-odd-clock", "14 moves the clock", |o, case| {
        if o.answer == 14 && batch(case).time <= LAST_SECOND {
            o.node = with(case, |node| node.clock = batch(case).time.max(node.clock));
        }
    }),
    ("batch-odd-counted", "14 has its pairs counted as applied", |o, case| {
        if o.answer == 14 {
            o.applied = numbers(case).len() as u64 / 2;
        }
    }),
    ("batch-empty-counted", "an empty list counts as an accepted event", |o, case| {
        if o.answer == 0 && numbers(case).is_empty() {
            after(o, |node| node.accepted += 1);
        }
    }),
    ("batch-counted-once", "a batch counts as one accepted event", |o, case| {
        if o.applied > 1 {
            after(o, |node| node.accepted = case.node.accepted + 1);
        }
    }),
    ("batch-refused-counted", "the refused pair counts as an accepted event", |o, _| {
        if matches!(o.answer, 8 | 11) {
            after(o, |node| node.accepted += 1);
        }
    }),
    ("batch-never-7", "7 is never answered", |o, case| {
        if o.answer == 7 {
            *o = of_sound(&with_accepted(case, 1));
        }
    }),
    ("batch-7-at-first", "7 is tried at the first pair only", |o, case| {
        if o.answer == 7 && o.applied > 0 {
            *o = of_sound(&with_accepted(case, 1));
            after(o, |node| node.accepted += case.node.accepted - 1);
        }
    }),
    ("batch-7-ahead", "7 for a batch that has more pairs than may be accepted", |o, case| {
        if o.answer == 7 && o.applied > 0 {
            *o = refused(case, 7);
        }
    }),
    ("batch-early-7", "7 is answered one pair too early", |o, case| {
        let last = Stored::of_octets(&o.node).accepted == MOST_ACCEPTED;
        if last && o.applied > 0 {
            *o = of_sound(&with_accepted(case, case.node.accepted + 1));
            after(o, |node| node.accepted -= 1);
        }
    }),
    ("batch-hasty-7", "7 is answered before 6", |o, case| {
        if o.answer == 6 && case.node.accepted == MOST_ACCEPTED {
            o.answer = 7;
        }
    }),
    ("batch-late-7", "7 is answered after 8", |o, case| {
        if o.answer == 7 && case.node.view().find(batch(case).name).is_none() {
            o.answer = 8;
        }
    }),
    ("batch-clock-back", "a refusal takes the clock back", |o, case| {
        if o.answer != 0 && o.applied > 0 {
            after(o, |node| node.clock = case.node.clock);
        }
    }),
    ("batch-count-back", "a refusal takes the accepted count back", |o, case| {
        if o.answer != 0 && o.applied > 0 {
            after(o, |node| node.accepted = case.node.accepted);
        }
    }),
    ("batch-all-back", "a refusal takes the applied pairs back", |o, case| {
        if o.answer != 0 && o.applied > 0 {
            *o = refused(case, o.answer);
        }
    }),
    ("batch-written-back", "a refusal has a written length of 0", |o, _| {
        if o.answer != 0 {
            o.written = 0;
        }
    }),
    ("batch-refused-writes", "a refused pair clears the octet after the output", |o, case| {
        if o.answer == 11 && (o.written as usize) < case.room {
            o.area[GUARD + o.written as usize] = 0;
        }
    }),
    ("batch-rest-cleared", "the octet after the output is zero", |o, case| {
        if o.answer == 0 && (o.written as usize) < case.room {
            o.area[GUARD + o.written as usize] = 0;
        }
    }),
    ("batch-rest-beyond", "the octet after the buffer is zero", |o, case| {
        o.area[GUARD + case.room] = 0;
    }),
    ("batch-first-octet", "the octet before the buffer is zero", |o, _| o.area[GUARD - 1] = 0),
];

fn event(case: &Case) -> &[u8] {
    match &case.lent {
        Lent::Event(event) => event,
        Lent::Batch(_) => panic!("a batch is no event"),
    }
}

fn batch(case: &Case) -> &Batch {
    match &case.lent {
        Lent::Event(_) => panic!("an event is no batch"),
        Lent::Batch(batch) => batch,
    }
}

fn numbers(case: &Case) -> &[u32] {
    &batch(case).volumes
}

/// The outcome's node with a change.
fn after(outcome: &mut Outcome, change: impl Fn(&mut Stored)) {
    let mut node = Stored::of_octets(&outcome.node);
    change(&mut node);
    outcome.node = node.octets();
}

/// The slots that an event has freed, with what they were.
fn freed(outcome: &mut Outcome, case: &Case, change: impl Fn(&mut Context, &Context)) {
    after(outcome, |node| {
        for (now, before) in node.contexts.iter_mut().zip(&case.node.contexts) {
            if now.active == 0 && before.active == 1 {
                change(now, before);
            }
        }
    });
}

/// The place of the set that a replacement names, and what it puts there.
fn replacement(case: &Case) -> (usize, LimitSet) {
    let What::Replace(set, next) = event::what(event(case)) else { panic!("no replacement") };
    (usize::from(set) - 1, LimitSet::store(next))
}

/// The case with another accepted count.
fn with_accepted(case: &Case, accepted: u64) -> Case {
    let node = Stored { accepted, ..case.node.clone() };
    Case { node, lent: case.lent.clone(), ..*case }
}

/// Does this row of the refusal table apply?
fn row(case: &Case, number: u8) -> bool {
    let (_, applies) = step::TABLE.iter().find(|row| row.0 == number).unwrap();
    applies(&case.node.view(), event(case), case.room)
}

/// The node of a case with a change.
fn with(case: &Case, change: impl Fn(&mut Stored)) -> Vec<u8> {
    let mut node = case.node.clone();
    change(&mut node);
    node.octets()
}
