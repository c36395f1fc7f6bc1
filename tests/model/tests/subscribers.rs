//! Attach and detach records (02, W4): M-CDRs written out by hand, and the
//! rules of subscribers one by one.

use charging_model::batch::{batch, Batch};
use charging_model::event::{octets, Name, Start, What};
use charging_model::limits::Limits;
use charging_model::node::{Node, MOST_ACCEPTED};
use charging_model::profile::Profile;
use charging_model::step::{step, TABLE};
use charging_model::subscriber::{Change, Imsi, Place, SUBSCRIBERS};

const ROOM: usize = 20_000;
const NAME: Name = Name { charging_id: 1, ggsn: [10, 0, 0, 2] };
/// 001010123456789, of document 01's session.
const IMSI: Imsi = [0x00, 0x01, 0x01, 0x21, 0x43, 0x65, 0x87, 0xF9];
/// 123456, of its bench table; and 1234560, which begins so.
const SHORT: Imsi = [0x21, 0x43, 0x65, 0xFF, 0xFF, 0xFF, 0xFF, 0xFF];
const LONGER: Imsi = [0x21, 0x43, 0x65, 0xF0, 0xFF, 0xFF, 0xFF, 0xFF];
const HOME: Place = Place { lac: 0x1234, rac: 0x56 };
const AWAY: Place = Place { lac: 0x1234, rac: 0x57 };

fn unhex(text: &str) -> Vec<u8> {
    text.split_whitespace().map(|pair| u8::from_str_radix(pair, 16).unwrap()).collect()
}

/// Document 01's profile.
fn profile() -> Profile {
    Profile {
        sgsn: [10, 0, 0, 1],
        limits: vec![Limits { volume: 1000, time: 60, changes: 2 }],
        offset: 0,
        node_id: Vec::new(),
    }
}

fn start(imsi: Imsi) -> Start {
    Start {
        flags: 0,
        imsi,
        pdp_type: [0xF1, 0x21],
        address: [10, 0, 0, 3],
        qos: [1, 3, 2, 4, 0],
        set: 1,
        apn: b"a".to_vec(),
    }
}

/// The IMSI 12345600, 12345601 and so on.
fn imsi_of(number: u8) -> Imsi {
    [0x21, 0x43, 0x65, number % 10 << 4 | number / 10, 0xFF, 0xFF, 0xFF, 0xFF]
}

struct Run(Node);

impl Run {
    fn new() -> Run {
        Run(Node::fresh(profile()))
    }

    fn attached(imsi: Imsi, place: Place) -> Run {
        let mut run = Run::new();
        assert_eq!(run.say(0, What::Attach(imsi, place)), []);
        run
    }

    /// The output of an event that is taken.
    fn say(&mut self, time: u32, what: What) -> Vec<u8> {
        let done = step(&self.0, &octets(time, &what), ROOM);
        assert_eq!(done.answer, 0, "{what:?}");
        assert!(done.node.sound());
        assert_eq!((done.node.clock, done.node.accepted), (time, self.0.accepted + 1));
        self.0 = done.node;
        done.output
    }

    /// The answer to octets; a refusal changes nothing.
    fn answer_to(&self, event: &[u8], room: usize) -> u8 {
        let done = step(&self.0, event, room);
        if done.answer != 0 {
            assert_eq!(done.node, self.0);
            assert_eq!(done.output, []);
        }
        done.answer
    }

    fn answer(&self, time: u32, what: What) -> u8 {
        self.answer_to(&octets(time, &what), ROOM)
    }

    fn subscriber(&mut self, at: usize) -> &mut charging_model::subscriber::Subscriber {
        self.0.subscribers[at].as_mut().unwrap()
    }
}

// ---- records written out by hand ----

#[test]
fn sole_record_without_changes() {
    let mut run = Run::attached(IMSI, HOME);
    let output = run.say(6, What::Detach(IMSI, 0));
    assert_eq!(
        output,
        unhex(
            "C3 5A A2 2D 80 01 14 81 08 00 01 01 21 43 65 87 F9
             A3 06 80 04 0A 00 00 01 85 01 56 86 02 12 34
             89 09 00 01 01 00 00 00 2B 00 00 8A 01 06 8C 01 00"
        )
    );
    assert_eq!(run.0.attached(), 0);
}

/// The duration runs to the closing at 70, not to the last change at 5.
#[test]
fn sole_record_with_two_changes() {
    let mut run = Run::attached(IMSI, HOME);
    assert_eq!(run.say(4, What::Location(IMSI, HOME)), []);
    assert_eq!(run.say(5, What::Location(IMSI, AWAY)), []);
    assert_eq!(run.say(5, What::Location(IMSI, Place { lac: 0xFFFF, rac: 0 })), []);
    let output = run.say(70, What::Detach(IMSI, 4));
    assert_eq!(
        output,
        unhex(
            "C3 5A A2 57 80 01 14 81 08 00 01 01 21 43 65 87 F9
             A3 06 80 04 0A 00 00 01 85 01 56 86 02 12 34
             A8 28
             30 12 80 02 12 34 81 01 57 83 09 00 01 01 00 00 05 2B 00 00
             30 12 80 02 FF FF 81 01 00 83 09 00 01 01 00 00 05 2B 00 00
             89 09 00 01 01 00 00 00 2B 00 00 8A 01 46 8C 01 04"
        )
    );
}

/// The fifteenth change is listed and closes; the next record opens at that
/// time at the place moved to.
#[test]
fn fifteen_changes_and_the_record_after_them() {
    let mut run = Run::attached(IMSI, Place { lac: 1, rac: 0 });
    for rac in 1..15 {
        let place = Place { lac: 1, rac };
        assert_eq!(run.say(10 * u32::from(rac), What::Location(IMSI, place)), []);
    }
    let last = Place { lac: 1, rac: 15 };
    let output = run.say(150, What::Location(IMSI, last));
    assert_eq!(
        output,
        unhex(
            "C3 5A A2 82 01 61 80 01 14 81 08 00 01 01 21 43 65 87 F9
             A3 06 80 04 0A 00 00 01 85 01 00 86 02 00 01
             A8 82 01 2C
             30 12 80 02 00 01 81 01 01 83 09 00 01 01 00 00 10 2B 00 00
             30 12 80 02 00 01 81 01 02 83 09 00 01 01 00 00 20 2B 00 00
             30 12 80 02 00 01 81 01 03 83 09 00 01 01 00 00 30 2B 00 00
             30 12 80 02 00 01 81 01 04 83 09 00 01 01 00 00 40 2B 00 00
             30 12 80 02 00 01 81 01 05 83 09 00 01 01 00 00 50 2B 00 00
             30 12 80 02 00 01 81 01 06 83 09 00 01 01 00 01 00 2B 00 00
             30 12 80 02 00 01 81 01 07 83 09 00 01 01 00 01 10 2B 00 00
             30 12 80 02 00 01 81 01 08 83 09 00 01 01 00 01 20 2B 00 00
             30 12 80 02 00 01 81 01 09 83 09 00 01 01 00 01 30 2B 00 00
             30 12 80 02 00 01 81 01 0A 83 09 00 01 01 00 01 40 2B 00 00
             30 12 80 02 00 01 81 01 0B 83 09 00 01 01 00 01 50 2B 00 00
             30 12 80 02 00 01 81 01 0C 83 09 00 01 01 00 02 00 2B 00 00
             30 12 80 02 00 01 81 01 0D 83 09 00 01 01 00 02 10 2B 00 00
             30 12 80 02 00 01 81 01 0E 83 09 00 01 01 00 02 20 2B 00 00
             30 12 80 02 00 01 81 01 0F 83 09 00 01 01 00 02 30 2B 00 00
             89 09 00 01 01 00 00 00 2B 00 00 8A 02 00 96 8C 01 13 8E 01 01"
        )
    );
    assert_eq!(run.say(150, What::Location(IMSI, last)), []);
    let output = run.say(150, What::Detach(IMSI, 0));
    assert_eq!(
        output,
        unhex(
            "C3 5A A2 30 80 01 14 81 08 00 01 01 21 43 65 87 F9
             A3 06 80 04 0A 00 00 01 85 01 0F 86 02 00 01
             89 09 00 01 01 00 02 30 2B 00 00 8A 01 00 8C 01 00 8E 01 02"
        )
    );
}

/// With a short IMSI, an offset below zero and a node ID.
#[test]
fn management_and_then_detach() {
    let profile = Profile { offset: -90, node_id: b"node".to_vec(), ..profile() };
    let mut run = Run(Node::fresh(profile));
    let place = Place { lac: 0, rac: 0xFF };
    assert_eq!(run.say(7, What::Attach(SHORT, place)), []);
    let output = run.say(100, What::SubscriberManagement(SHORT));
    assert_eq!(
        output,
        unhex(
            "C3 5A A2 31 80 01 14 81 03 21 43 65
             A3 06 80 04 0A 00 00 01 85 01 FF 86 02 00 00
             89 09 00 01 01 00 00 07 2D 01 30 8A 01 5D 8C 01 14 8E 01 01
             8F 04 6E 6F 64 65"
        )
    );
    assert_eq!(run.say(101, What::Location(SHORT, place)), []);
    assert_eq!(run.say(130, What::Location(SHORT, Place { lac: 0, rac: 0xFE })), []);
    let output = run.say(131, What::Detach(SHORT, 4));
    assert_eq!(
        output,
        unhex(
            "C3 5A A2 47 80 01 14 81 03 21 43 65
             A3 06 80 04 0A 00 00 01 85 01 FF 86 02 00 00
             A8 14 30 12 80 02 00 00 81 01 FE 83 09 00 01 01 00 02 10 2D 01 30
             89 09 00 01 01 00 01 40 2D 01 30 8A 01 1F 8C 01 04 8E 01 02
             8F 04 6E 6F 64 65"
        )
    );
}

/// The longest: 15 changes, a duration and a number of as many octets as there
/// may be. 01's 1,024 octets are far.
#[test]
fn longest_record() {
    let profile = Profile { node_id: vec![b'~'; 20], ..profile() };
    let mut run = Run(Node::fresh(profile));
    run.say(0, What::Attach(IMSI, HOME));
    run.0.accepted = MOST_ACCEPTED - 20;
    run.subscriber(0).closed = MOST_ACCEPTED - 30;
    let mut output = Vec::new();
    for at in 0..15 {
        let place = if at % 2 == 0 { AWAY } else { HOME };
        output = run.say(3_155_759_999, What::Location(IMSI, place));
    }
    assert_eq!(output.len() - 2, 388);
    assert_eq!(output[2..6], [0xA2, 0x82, 0x01, 0x80]);
}

// ---- places ----

/// "A change to the same place is none": back to the place before the last is
/// one, to the place of a new opening is none.
#[test]
fn which_changes_are_listed() {
    let mut run = Run::attached(IMSI, HOME);
    run.say(1, What::Location(IMSI, AWAY));
    run.say(2, What::Location(IMSI, AWAY));
    run.say(3, What::Location(IMSI, HOME));
    let listed = [Change { place: AWAY, time: 1 }, Change { place: HOME, time: 3 }];
    assert_eq!(run.subscriber(0).changes, listed);
    run.say(4, What::Location(IMSI, AWAY));
    run.say(5, What::SubscriberManagement(IMSI));
    assert_eq!((run.subscriber(0).place, run.subscriber(0).opened), (AWAY, 5));
    run.say(6, What::Location(IMSI, AWAY));
    assert_eq!(run.subscriber(0).changes, []);
    run.say(7, What::Location(IMSI, HOME));
    assert_eq!(run.subscriber(0).changes, [Change { place: HOME, time: 7 }]);
}

/// LAC and RAC each make another place.
#[test]
fn half_of_a_place() {
    let mut run = Run::attached(IMSI, HOME);
    run.say(1, What::Location(IMSI, Place { lac: 0x1235, ..HOME }));
    run.say(1, What::Location(IMSI, Place { lac: 0x1235, rac: 0x55 }));
    assert_eq!(run.subscriber(0).changes.len(), 2);
}

/// "Numbering .. as for S-CDRs": anew for each attachment.
#[test]
fn numbers_of_attachments() {
    let mut run = Run::attached(IMSI, HOME);
    for round in 0..2 {
        for number in 1..=3 {
            let output = run.say(9, What::SubscriberManagement(IMSI));
            assert_eq!(output[output.len() - 3..], [0x8E, 1, number]);
        }
        let output = run.say(9, What::Detach(IMSI, 4 * round));
        assert_eq!(output[output.len() - 6..], [0x8C, 1, 4 * round, 0x8E, 1, 4]);
        assert_eq!(run.say(9, What::Attach(IMSI, AWAY)), []);
    }
    let output = run.say(9, What::Detach(IMSI, 4));
    assert_eq!(output[output.len() - 3..], [0x8C, 1, 4]);
}

// ---- the table ----

#[test]
fn lowest_free_place() {
    let mut run = Run::new();
    for number in 0..SUBSCRIBERS as u8 {
        run.say(1, What::Attach(imsi_of(number), HOME));
    }
    run.say(2, What::Detach(imsi_of(9), 0));
    run.say(2, What::Detach(imsi_of(3), 0));
    run.say(2, What::Attach(imsi_of(20), AWAY));
    assert_eq!(run.subscriber(3).imsi, imsi_of(20));
    run.say(2, What::Attach(imsi_of(3), AWAY));
    assert_eq!(run.subscriber(9).imsi, imsi_of(3));
}

/// Contexts and subscribers do not hear of each other.
#[test]
fn contexts_beside_subscribers() {
    let mut alone = Run::new();
    let mut both = Run::new();
    both.say(0, What::Attach(IMSI, HOME));
    let events = [
        (0, What::Activate(NAME, Box::new(start(IMSI)))),
        (5, What::Traffic(NAME, 400, 600)),
        (6, What::Tariff),
        (7, What::Tariff),
        (600, What::Tick),
        (601, What::Management(NAME)),
        (602, What::Release(NAME, 0)),
    ];
    for (time, what) in events {
        let before = both.0.subscribers.clone();
        assert_eq!(alone.say(time, what.clone()), both.say(time, what));
        assert_eq!(both.0.subscribers, before);
        both.say(time, What::Location(IMSI, if time % 2 == 0 { AWAY } else { HOME }));
        assert_eq!(both.0.slots, alone.0.slots);
    }
    assert!(both.subscriber(0).changes.len() > 2, "more changes than the change limit");
}

// ---- refusals ----

#[test]
fn lengths_and_fields() {
    let run = Run::attached(IMSI, HOME);
    let taken = [
        What::Attach(SHORT, HOME),
        What::Location(IMSI, AWAY),
        What::SubscriberManagement(IMSI),
        What::Detach(IMSI, 4),
    ];
    for (what, length) in taken.iter().zip([18, 18, 15, 16]) {
        let event = octets(0, what);
        assert_eq!(event.len(), length);
        assert_eq!(run.answer_to(&event, ROOM), 0);
        assert_eq!(run.answer_to(&event[..length - 1], ROOM), 4);
        assert_eq!(run.answer_to(&[&event[..], &[0]].concat(), ROOM), 4);
        for (at, value) in [(7, 0xA1), (9, 0xF5), (14, 0x01), (14, 0xEF)] {
            let mut spoilt = octets(0, what);
            spoilt[at] = value;
            assert_eq!(run.answer_to(&spoilt, ROOM), 5, "{what:?}, {at}");
        }
    }
    for cause in 0..=255 {
        let answer = if matches!(cause, 0 | 4) { 0 } else { 5 };
        assert_eq!(run.answer(0, What::Detach(IMSI, cause)), answer);
    }
    for kind in [0, 13, 14, 255] {
        let mut event = octets(0, &taken[0]);
        event[2] = kind;
        assert_eq!(run.answer_to(&event, ROOM), 3);
    }
}

/// "15 attached already, 16 not attached, 17 no free place, where 9, 8 and 10
/// stand for contexts"
#[test]
fn order_of_the_rows() {
    let rows: Vec<u8> = TABLE.iter().map(|row| row.0).collect();
    assert_eq!(rows, [13, 1, 2, 3, 4, 5, 6, 7, 18, 19, 8, 9, 10, 16, 15, 17, 11]);
    let mut run = Run::new();
    for number in 0..SUBSCRIBERS as u8 {
        run.say(5, What::Attach(imsi_of(number), HOME));
    }
    let (there, other) = (imsi_of(3), imsi_of(77));
    let none: Imsi = [0; 8];
    let asked = [
        (5, What::Attach(there, HOME), 15),
        (5, What::Attach(other, HOME), 17),
        (5, What::Location(other, HOME), 16),
        (5, What::SubscriberManagement(other), 16),
        (5, What::Detach(other, 0), 16),
        (5, What::Detach(there, 0), 11),
        (5, What::SubscriberManagement(there), 11),
        (5, What::Detach(other, 1), 5),
        (5, What::Detach(there, 18), 5),
        (5, What::Attach(none, HOME), 5),
        (5, What::Location(none, HOME), 5),
        (4, What::Attach(there, HOME), 6),
        (4, What::Attach(other, HOME), 6),
        (4, What::Location(other, HOME), 6),
        (4, What::Detach(there, 0), 6),
        (4, What::Detach(other, 1), 5),
        (3_155_760_000, What::SubscriberManagement(other), 6),
    ];
    for (time, what, answer) in &asked {
        assert_eq!(run.answer_to(&octets(*time, what), 0), *answer, "{what:?}");
    }
    run.0.accepted = MOST_ACCEPTED;
    for (time, what, answer) in &asked {
        let later = if matches!(answer, 5 | 6) { *answer } else { 7 };
        assert_eq!(run.answer_to(&octets(*time, what), 0), later, "{what:?}");
    }
    run.0.accepted += 1;
    for (time, what, _) in &asked {
        assert_eq!(run.answer_to(&octets(*time, what), 0), 13, "{what:?}");
    }
}

/// An IMSI names one subscriber: not one that it begins, nor one of whose
/// contexts some are active.
#[test]
fn names_are_whole() {
    let mut run = Run::attached(SHORT, HOME);
    assert_eq!(run.answer(0, What::Detach(LONGER, 0)), 16);
    run.say(0, What::Activate(NAME, Box::new(start(LONGER))));
    assert_eq!(run.answer(0, What::Detach(LONGER, 0)), 16);
    assert_eq!(run.answer(0, What::Attach(LONGER, HOME)), 0);
    assert_eq!(run.answer(0, What::Attach(SHORT, HOME)), 15);
}

#[test]
fn room_counts_the_mark() {
    let run = Run::attached(IMSI, HOME);
    let event = octets(6, &What::Detach(IMSI, 0));
    assert_eq!(run.answer_to(&event, 49), 0);
    assert_eq!(run.answer_to(&event, 48), 11);
    assert_eq!(run.answer_to(&octets(6, &What::Location(IMSI, AWAY)), 0), 0);
    assert_eq!(run.answer_to(&octets(6, &What::Attach(SHORT, AWAY)), 0), 0);
}

// ---- a sound node ----

#[test]
fn nothing_but_a_sound_node_is_taken() {
    type Spoil = fn(&mut Run);
    let spoil: [Spoil; 13] = [
        |run| run.0.subscribers[1] = run.0.subscribers[0].clone(),
        |run| run.subscriber(0).imsi[7] = 0,
        |run| run.subscriber(0).imsi = [0x21, 0x43, 0xF5, 0xFF, 0xFF, 0xFF, 0xFF, 0xFF],
        |run| run.subscriber(0).closed = run.0.accepted,
        |run| run.subscriber(0).opened = 12,
        |run| run.subscriber(0).changes[0].time = 21,
        |run| run.subscriber(0).changes[1].time = 10,
        |run| run.subscriber(0).changes[1].time = 101,
        |run| run.0.clock = 19,
        |run| run.subscriber(0).place = AWAY,
        |run| run.subscriber(0).changes[1].place = AWAY,
        |run| {
            let mut last = *run.subscriber(0).changes.last().unwrap();
            for rac in 0..13 {
                last.place.rac = rac;
                run.subscriber(0).changes.push(last);
            }
        },
        |run| drop(run.0.subscribers.pop()),
    ];
    for (at, spoil) in spoil.iter().enumerate() {
        let mut run = Run::attached(IMSI, HOME);
        run.say(10, What::SubscriberManagement(IMSI));
        run.say(11, What::Location(IMSI, AWAY));
        run.say(20, What::Location(IMSI, HOME));
        run.say(100, What::Activate(NAME, Box::new(start(IMSI))));
        assert_eq!(run.answer_to(&[], ROOM), 1);
        spoil(&mut run);
        assert!(!run.0.sound(), "change {at}");
        for event in [octets(100, &What::Tick), octets(100, &What::Detach(IMSI, 0)), Vec::new()] {
            assert_eq!(run.answer_to(&event, ROOM), 13, "change {at}");
        }
        for volumes in [vec![1, 2], vec![1], Vec::new()] {
            let reports = Batch { time: 100, name: NAME, volumes };
            assert_eq!(batch(&run.0, &reports, ROOM).answer, 13, "change {at}");
        }
    }
}

/// A batch leaves subscribers as they are.
#[test]
fn a_batch_beside_subscribers() {
    let mut run = Run::attached(IMSI, HOME);
    run.say(0, What::Activate(NAME, Box::new(start(IMSI))));
    let reports = Batch { time: 90, name: NAME, volumes: vec![1000, 0, 0, 1000] };
    let done = batch(&run.0, &reports, ROOM);
    assert_eq!((done.answer, done.applied, done.records.len()), (0, 2, 2));
    assert_eq!(done.node.subscribers, run.0.subscribers);
    assert!(done.records.iter().all(|record| record.s().is_some()));
}
