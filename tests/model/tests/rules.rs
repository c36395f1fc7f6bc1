//! What document 01 prints, and one record of every closing cause read back.

use charging_model::event::{octets, Name, Start, What};
use charging_model::limits::Limits;
use charging_model::node::{Node, MOST_ACCEPTED};
use charging_model::profile::Profile;
use charging_model::{clock, record, step};

const ROOM: usize = 20_000;
const NAME: Name = Name { charging_id: 1, ggsn: [10, 0, 0, 2] };
const QOS: [u8; 5] = [1, 3, 2, 4, 0];

fn unhex(text: &str) -> Vec<u8> {
    text.split_whitespace().map(|pair| u8::from_str_radix(pair, 16).unwrap()).collect()
}

fn profile() -> Profile {
    Profile {
        sgsn: [10, 0, 0, 1],
        limits: vec![Limits { volume: 1000, time: 60, changes: 2 }],
        offset: 0,
        node_id: Vec::new(),
    }
}

fn start() -> Start {
    Start {
        flags: 0,
        imsi: [0x00, 0x01, 0x01, 0x21, 0x43, 0x65, 0x87, 0xF9],
        pdp_type: [0xF1, 0x21],
        address: [10, 0, 0, 3],
        qos: QOS,
        set: 1,
        apn: b"a".to_vec(),
    }
}

struct Run(Node);

impl Run {
    fn new() -> Run {
        Run::with(profile(), start())
    }

    fn with(profile: Profile, start: Start) -> Run {
        let mut run = Run(Node::fresh(profile));
        assert_eq!(run.say(0, What::Activate(NAME, Box::new(start))), []);
        run
    }

    fn say(&mut self, time: u32, what: What) -> Vec<u8> {
        let done = step::step(&self.0, &octets(time, &what), ROOM);
        assert_eq!(done.answer, 0);
        assert!(done.node.sound());
        self.0 = done.node;
        done.output
    }

    fn answer(&self, event: &[u8], room: usize) -> u8 {
        let done = step::step(&self.0, event, room);
        if done.answer != 0 {
            assert_eq!(done.node, self.0);
            assert_eq!(done.output, []);
        }
        done.answer
    }
}

// ---- a reader of its own: it only knows tags and lengths ----

struct Values<'a>(Vec<(u8, &'a [u8])>);

fn values(mut octets: &[u8]) -> Values<'_> {
    let mut found = Vec::new();
    while !octets.is_empty() {
        let (length, head) = match octets[1] {
            short @ 0..=0x7F => (usize::from(short), 2),
            0x81 => (usize::from(octets[2]), 3),
            0x82 => (usize::from(octets[2]) << 8 | usize::from(octets[3]), 4),
            other => panic!("length {other:02X}"),
        };
        found.push((octets[0], &octets[head..head + length]));
        octets = &octets[head + length..];
    }
    Values(found)
}

impl<'a> Values<'a> {
    fn tags(&self) -> Vec<u8> {
        self.0.iter().map(|(tag, _)| *tag).collect()
    }

    fn get(&self, tag: u8) -> &'a [u8] {
        self.0.iter().find(|(t, _)| *t == tag).unwrap_or_else(|| panic!("no {tag:02X}")).1
    }
}

fn body(output: &[u8]) -> &[u8] {
    assert_eq!(output[..2], [0xC3, 0x5A]);
    let outer = values(&output[2..]);
    assert_eq!(outer.tags(), [0xA0]);
    outer.0[0].1
}

/// Everything but the containers, the cause, the number and the flags, which
/// differ between the records below.
fn common(found: &Values, opened: &str, duration: &[u8]) {
    assert_eq!(found.get(0x80), [18]);
    assert_eq!(found.get(0x83), unhex("00 01 01 21 43 65 87 F9"));
    assert_eq!(found.get(0xA5), unhex("80 04 0A 00 00 01"));
    assert_eq!(found.get(0x8A), [1]);
    assert_eq!(found.get(0xAB), unhex("80 04 0A 00 00 02"));
    assert_eq!(found.get(0x8C), b"a");
    assert_eq!(found.get(0x8D), [0xF1, 0x21]);
    assert_eq!(found.get(0xAE), unhex("A0 06 80 04 0A 00 00 03"));
    assert_eq!(found.get(0x90), unhex(opened));
    assert_eq!(found.get(0x91), duration);
}

/// The QoS is to stand in the first container, and after condition 0.
fn containers(found: &Values, expected: &[(&[u8; 5], &[u8], &[u8], u8, &str)]) {
    let list = values(found.get(0xAF));
    assert_eq!(list.0.len(), expected.len());
    let mut before = 0;
    for ((tag, contents), (qos, up, down, condition, time)) in list.0.iter().zip(expected) {
        assert_eq!(*tag, 0x30);
        let parts = values(contents);
        if before == 0 {
            assert_eq!(parts.tags(), [0xA2, 0x83, 0x84, 0x85, 0x86]);
            let levels = values(parts.get(0xA2));
            assert_eq!(levels.tags(), [0x80, 0x81, 0x82, 0x83, 0x84]);
            for (at, level) in levels.0.iter().enumerate() {
                assert_eq!(level.1, [qos[at]]);
            }
        } else {
            assert_eq!(parts.tags(), [0x83, 0x84, 0x85, 0x86]);
        }
        before = *condition;
        assert_eq!(parts.get(0x83), *up);
        assert_eq!(parts.get(0x84), *down);
        assert_eq!(parts.get(0x85), [*condition]);
        assert_eq!(parts.get(0x86), unhex(time));
    }
}

const PLAIN: [u8; 13] =
    [0x80, 0x83, 0xA5, 0x8A, 0xAB, 0x8C, 0x8D, 0xAE, 0xAF, 0x90, 0x91, 0x93, 0x95];

// ---- "One session, whole" ----

#[test]
fn session_as_printed() {
    let mut run = Run::new();
    assert_eq!(run.say(5, What::Traffic(NAME, 400, 599)), []);
    let output = run.say(6, What::Release(NAME, 0));
    assert_eq!(output.len(), 113);
    assert_eq!(
        output,
        unhex(
            "C3 5A A0 6D 80 01 12 83 08 00 01 01 21 43 65 87 F9
             A5 06 80 04 0A 00 00 01 8A 01 01 AB 06 80 04 0A 00 00 02
             8C 01 61 8D 02 F1 21 AE 08 A0 06 80 04 0A 00 00 03
             AF 29 30 27 A2 0F 80 01 01 81 01 03 82 01 02 83 01 04
             84 01 00 83 02 01 90 84 02 02 57 85 01 02
             86 09 00 01 01 00 00 06 2B 00 00
             90 09 00 01 01 00 00 00 2B 00 00 91 01 06 93 01 00"
        )
    );
    assert_eq!(run.0.active(), 0);
}

#[test]
fn session_with_closings() {
    let mut run = Run::new();
    run.say(5, What::Traffic(NAME, 400, 599));
    let output = run.say(6, What::Traffic(NAME, 0, 1));
    let found = values(body(&output));
    assert_eq!(found.tags(), PLAIN);
    common(&found, "00 01 01 00 00 00 2B 00 00", &[6]);
    containers(&found, &[(&QOS, &[1, 0x90], &[2, 0x58], 2, "00 01 01 00 00 06 2B 00 00")]);
    assert_eq!((found.get(0x93), found.get(0x95)), (&[16][..], &[1][..]));

    assert_eq!(run.say(10, What::Tariff), []);
    assert_eq!(run.say(65, What::Tick), []);
    let output = run.say(66, What::Tick);
    let found = values(body(&output));
    assert_eq!(found.tags(), PLAIN);
    common(&found, "00 01 01 00 00 06 2B 00 00", &[60]);
    containers(
        &found,
        &[
            (&QOS, &[0], &[0], 1, "00 01 01 00 00 10 2B 00 00"),
            (&QOS, &[0], &[0], 2, "00 01 01 00 01 06 2B 00 00"),
        ],
    );
    assert_eq!((found.get(0x93), found.get(0x95)), (&[17][..], &[2][..]));

    let output = run.say(66, What::Release(NAME, 0));
    let found = values(body(&output));
    assert_eq!(found.tags(), PLAIN);
    common(&found, "00 01 01 00 01 06 2B 00 00", &[0]);
    containers(&found, &[(&QOS, &[0], &[0], 2, "00 01 01 00 01 06 2B 00 00")]);
    assert_eq!((found.get(0x93), found.get(0x95)), (&[0][..], &[3][..]));
}

// ---- "Bench table (marked)" ----

#[test]
fn bench_table() {
    for (value, text) in [
        (0, "00"),
        (127, "7F"),
        (128, "00 80"),
        (32768, "00 80 00"),
        (4294967295, "00 FF FF FF FF"),
    ] {
        assert_eq!(record::integer(value), unhex(text));
    }
    for (value, text) in [(127, "7F"), (128, "81 80"), (256, "82 01 00")] {
        assert_eq!(record::length(value), unhex(text));
    }
    for (seconds, offset, text) in [
        (0, 0, "00 01 01 00 00 00 2B 00 00"),
        (5_097_600, 0, "00 02 29 00 00 00 2B 00 00"),
        (3_155_759_999, -90, "99 12 31 23 59 59 2D 01 30"),
    ] {
        assert_eq!(clock::time_stamp(seconds, offset).to_vec(), unhex(text));
    }
    let imsi = [0x21, 0x43, 0x65, 0xFF, 0xFF, 0xFF, 0xFF, 0xFF];
    assert_eq!(record::imsi(&imsi), unhex("21 43 65"));
}

#[test]
fn calendar_has_every_day_once() {
    let mut last = (1999, 12, 31);
    for day in 0..36_525 {
        let date = clock::date(day);
        assert_eq!(clock::day_of(date.0, date.1, date.2), day);
        assert!(date > last);
        last = date;
    }
    assert_eq!(last, (2099, 12, 31));
    assert_eq!(36_525 * 86_400 - 1, clock::LAST_SECOND);
}

// ---- a record of every closing cause ----

#[test]
fn each_release_alone_and_after_another_record() {
    for cause in [0, 4, 18] {
        let mut run = Run::new();
        let output = run.say(90_000, What::Release(NAME, cause));
        let found = values(body(&output));
        assert_eq!(found.tags(), PLAIN[..12]);
        common(&found, "00 01 01 00 00 00 2B 00 00", &[1, 0x5F, 0x90]);
        containers(&found, &[(&QOS, &[0], &[0], 2, "00 01 02 01 00 00 2B 00 00")]);
        assert_eq!(found.get(0x93), [cause]);

        let mut run = Run::new();
        run.say(1, What::Management(NAME));
        let output = run.say(2, What::Release(NAME, cause));
        let found = values(body(&output));
        assert_eq!(found.tags(), PLAIN);
        common(&found, "00 01 01 00 00 01 2B 00 00", &[1]);
        assert_eq!((found.get(0x93), found.get(0x95)), (&[cause][..], &[2][..]));
    }
}

#[test]
fn management_with_flags_and_node_id() {
    let profile = Profile { offset: -90, node_id: b"node".to_vec(), ..profile() };
    let mut run = Run::with(profile, Start { flags: 3, ..start() });
    let first = run.say(7, What::Management(NAME));
    let second = run.say(7, What::Management(NAME));
    let found = values(body(&first));
    let mut tags = PLAIN.to_vec();
    tags.insert(1, 0x81);
    tags.push(0x96);
    let later = tags.clone();
    tags.insert(12, 0x92);
    assert_eq!(found.tags(), tags);
    common(&found, "00 01 01 00 00 00 2D 01 30", &[7]);
    containers(&found, &[(&QOS, &[0], &[0], 2, "00 01 01 00 00 07 2D 01 30")]);
    assert_eq!((found.get(0x81), found.get(0x92)), (&[255][..], &[255][..]));
    assert_eq!((found.get(0x93), found.get(0x95)), (&[20][..], &[1][..]));
    assert_eq!(found.get(0x96), b"node");
    let found = values(body(&second));
    assert_eq!(found.tags(), later);
    common(&found, "00 01 01 00 00 07 2D 01 30", &[0]);
    assert_eq!((found.get(0x93), found.get(0x95)), (&[20][..], &[2][..]));
}

#[test]
fn change_limit_by_qos_then_by_tariff() {
    let other = [0, 0, 0, 9, 18];
    let mut run = Run::new();
    run.say(1, What::Traffic(NAME, 128, 0));
    assert_eq!(run.say(2, What::Tariff), []);
    assert_eq!(run.say(3, What::Qos(NAME, QOS)), []);
    run.say(4, What::Traffic(NAME, 1, 2));
    let output = run.say(5, What::Qos(NAME, other));
    let found = values(body(&output));
    common(&found, "00 01 01 00 00 00 2B 00 00", &[5]);
    containers(
        &found,
        &[
            (&QOS, &[0, 128], &[0], 1, "00 01 01 00 00 02 2B 00 00"),
            (&QOS, &[1], &[2], 2, "00 01 01 00 00 05 2B 00 00"),
        ],
    );
    assert_eq!((found.get(0x93), found.get(0x95)), (&[19][..], &[1][..]));

    assert_eq!(run.say(6, What::Qos(NAME, QOS)), []);
    let output = run.say(7, What::Tariff);
    let found = values(body(&output));
    common(&found, "00 01 01 00 00 05 2B 00 00", &[2]);
    containers(
        &found,
        &[
            (&other, &[0], &[0], 0, "00 01 01 00 00 06 2B 00 00"),
            (&QOS, &[0], &[0], 2, "00 01 01 00 00 07 2B 00 00"),
        ],
    );
    assert_eq!((found.get(0x93), found.get(0x95)), (&[19][..], &[2][..]));
}

// ---- refusals ----

#[test]
fn rows_that_no_run_reaches() {
    let mut run = Run::new();
    let tick = octets(1, &What::Tick);
    run.0.accepted = MOST_ACCEPTED;
    assert!(run.0.sound());
    assert_eq!(run.answer(&tick, ROOM), 7);
    let unknown = Name { charging_id: 2, ..NAME };
    assert_eq!(run.answer(&octets(1, &What::Management(unknown)), ROOM), 7);
    let mut late = tick.clone();
    late[3] = 0xFF;
    assert_eq!(run.answer(&late, ROOM), 6);
    run.0.accepted += 1;
    assert_eq!(run.answer(&tick, ROOM), 13);
    assert_eq!(run.answer(&[], ROOM), 13);

    let mut run = Run::new();
    run.0.profile.limits[0].changes = 0;
    assert_eq!(run.answer(&[], 0), 13);
}

#[test]
fn nothing_but_a_sound_node_is_taken() {
    type Change = fn(&mut Node);
    let spoil: [Change; 13] = [
        |n| n.clock = 3_155_760_000,
        |n| n.slots[1] = n.slots[0].clone(),
        |n| n.slots[0].as_mut().unwrap().closed = n.accepted,
        |n| n.slots[0].as_mut().unwrap().changes = 0,
        |n| n.slots[0].as_mut().unwrap().containers[0].condition = 2,
        |n| n.slots[0].as_mut().unwrap().containers[0].time = 11,
        |n| n.slots[0].as_mut().unwrap().opened = 6,
        |n| n.slots[0].as_mut().unwrap().containers[0].condition = 0,
        |n| n.slots[0].as_mut().unwrap().qos = [0; 5],
        |n| n.slots[0].as_mut().unwrap().uplink = 999,
        |n| n.slots[0].as_mut().unwrap().start.flags = 4,
        |n| n.slots[0].as_mut().unwrap().start.imsi[7] = 0,
        |n| n.slots[0].as_mut().unwrap().start.apn[0] = b'A',
    ];
    let mut run = Run::new();
    run.say(4, What::Traffic(NAME, 1, 0));
    run.say(5, What::Tariff);
    run.say(10, What::Tick);
    for (at, change) in spoil.iter().enumerate() {
        let mut node = run.0.clone();
        change(&mut node);
        assert!(!node.sound(), "change {at}");
    }
}

#[test]
fn lengths_of_an_activate() {
    let run = Run(Node::fresh(profile()));
    let with = |n: usize, octets_after: usize| {
        let start = Start { apn: vec![b'x'; n], ..start() };
        let mut event = octets(0, &What::Activate(NAME, Box::new(start)));
        event.resize(37 + octets_after, b'x');
        event
    };
    assert_eq!(run.answer(&with(0, 0), ROOM), 5);
    assert_eq!(run.answer(&with(0, 1), ROOM), 4);
    assert_eq!(run.answer(&with(1, 0), ROOM), 4);
    assert_eq!(run.answer(&with(63, 63), ROOM), 0);
    assert_eq!(run.answer(&with(64, 64), ROOM), 5);
    assert_eq!(run.answer(&with(255, 255), ROOM), 5);
    assert_eq!(run.answer(&with(1, 0)[..36], ROOM), 4);
    assert_eq!(run.answer(&with(1, 1)[..36], ROOM), 4);
}

#[test]
fn room_counts_the_marks() {
    let run = Run::new();
    let event = octets(0, &What::Management(NAME));
    let needed = step::step(&run.0, &event, ROOM).output.len();
    assert_eq!(run.answer(&event, needed), 0);
    assert_eq!(run.answer(&event, needed - 1), 11);
    assert_eq!(run.answer(&octets(0, &What::Tick), 0), 0);
}

#[test]
fn profile_text_both_ways() {
    let text = b"sgsn 10.0.0.1\nlimits 1000 60 2\noffset -90\nnode-id a b \n";
    let read = Profile::read(text).unwrap();
    assert_eq!(read, Profile { offset: -90, node_id: b"a b ".to_vec(), ..profile() });
    assert_eq!(read.text(), text);
    for (from, to) in [("offset -90", "offset +90"), ("60", "060"), ("a b ", ""), ("\n", "\r\n")] {
        let other = String::from_utf8(text.to_vec()).unwrap().replacen(from, to, 1);
        assert_eq!(Profile::read(other.as_bytes()), None, "{other}");
    }
}

// ---- W5: "One spelling of an APN" ----

const CREW: [&[u8]; 5] = [b"crew.ship", b"Crew.Ship", b"CREW.SHIP", b"cREW.sHIP", b"crew.shiP"];

fn activation(name: Name, apn: &[u8]) -> What {
    What::Activate(name, Box::new(Start { apn: apn.to_vec(), ..start() }))
}

/// The records of an activation with the APN: by changes, by the volume, by
/// management, at a tick and at its release.
fn records_of(name: Name, apn: &[u8]) -> Vec<Vec<u8>> {
    let mut run = Run(Node::fresh(profile()));
    assert_eq!(run.say(3, activation(name, apn)), []);
    let events = [
        (5, What::Traffic(name, 400, 599)),
        (6, What::Qos(name, [0; 5])),
        (7, What::Tariff),
        (8, What::Traffic(name, 1, 999)),
        (9, What::Management(name)),
        (69, What::Tick),
        (70, What::Release(name, 4)),
    ];
    let outputs = events.into_iter().map(|(time, what)| run.say(time, what));
    outputs.filter(|output| !output.is_empty()).collect()
}

/// "Crew.Ship" and "crew.ship" are one customer.
#[test]
fn every_spelling_gives_the_same_octets() {
    let records = records_of(NAME, b"crew.ship");
    assert_eq!(records.len(), 5);
    for record in &records {
        assert_eq!(values(body(record)).get(0x8C), b"crew.ship");
    }
    for apn in CREW {
        assert_eq!(records_of(NAME, apn), records, "{apn:?}");
    }
}

/// Two contexts of one node: all of their records but the name is the same.
#[test]
fn two_spellings_side_by_side() {
    let other = Name { charging_id: 2, ..NAME };
    let mut run = Run(Node::fresh(profile()));
    run.say(0, activation(NAME, b"Crew.Ship"));
    run.say(0, activation(other, b"crew.ship"));
    for name in [NAME, other] {
        run.say(1, What::Traffic(name, 1, 2));
    }
    let (one, two) = (run.say(2, What::Release(NAME, 0)), run.say(2, What::Release(other, 0)));
    let (one, two) = (values(body(&one)), values(body(&two)));
    assert_eq!(one.tags(), two.tags());
    assert_eq!((one.get(0x8A), two.get(0x8A)), (&[1][..], &[2][..]));
    for tag in one.tags().into_iter().filter(|tag| *tag != 0x8A) {
        assert_eq!(one.get(tag), two.get(tag), "{tag:02X}");
    }
}

/// The name of a context is not spelled at all: charging ID and GGSN stay.
#[test]
fn names_of_contexts_are_untouched() {
    let name = Name { charging_id: 0x4142_595A, ggsn: *b"AZaz" };
    let mut run = Run(Node::fresh(profile()));
    run.say(0, activation(name, b"A"));
    let lowered = Name { charging_id: 0x6162_797A, ggsn: *b"azaz" };
    assert_eq!(run.answer(&octets(0, &What::Release(lowered, 0)), ROOM), 8);
    let output = run.say(0, What::Release(name, 0));
    let found = values(body(&output));
    assert_eq!(found.get(0x8A), b"ABYZ");
    assert_eq!(found.get(0xAB), [&[0x80, 4][..], b"AZaz"].concat());
}

/// "A stored capital makes a node unsound, 13."
#[test]
fn stored_capitals() {
    let run = Run::with(profile(), Start { apn: b"Crew.Ship".to_vec(), ..start() });
    assert_eq!(run.0.slots[0].as_ref().unwrap().start.apn, b"crew.ship");
    for capital in b'A'..=b'Z' {
        for at in 0..9 {
            let mut node = run.0.clone();
            node.slots[0].as_mut().unwrap().start.apn[at] = capital;
            assert!(!node.sound(), "{capital} at {at}");
            let unsound = Run(node);
            assert_eq!(unsound.answer(&octets(0, &What::Tick), ROOM), 13);
            assert_eq!(unsound.answer(&octets(0, &What::Release(NAME, 0)), ROOM), 13);
        }
    }
}

/// Every octet as the only one of an APN, and at the end of one: which an event
/// may have, which a node, and what is stored.
#[test]
fn every_octet_of_an_apn() {
    let small = b"abcdefghijklmnopqrstuvwxyz";
    let capitals = b"ABCDEFGHIJKLMNOPQRSTUVWXYZ";
    let others = b"0123456789.-";
    for octet in 0..=255u8 {
        for before in [&b""[..], b"a"] {
            let apn = [before, &[octet]].concat();
            let fresh = Run(Node::fresh(profile()));
            let event = octets(0, &activation(NAME, &apn));
            let stays = small.contains(&octet) || others.contains(&octet);
            let taken = stays || capitals.contains(&octet);
            assert_eq!(fresh.answer(&event, ROOM), if taken { 0 } else { 5 }, "{octet:02X}");
            let mut node = Run::new().0;
            node.slots[0].as_mut().unwrap().start.apn = apn.clone();
            assert_eq!(node.sound(), stays, "{octet:02X}");
            if taken {
                let stored = step::step(&fresh.0, &event, ROOM).node;
                let lower = match capitals.iter().position(|capital| *capital == octet) {
                    Some(at) => small[at],
                    None => octet,
                };
                let stored = &stored.slots[0].as_ref().unwrap().start.apn;
                assert_eq!(*stored, [before, &[lower]].concat(), "{octet:02X}");
            }
        }
    }
}

/// A record of fifteen containers, as long as the changes let it be.
fn record_of_15(change: fn(usize, Name) -> What) -> Vec<u8> {
    let limits = vec![Limits { volume: 1_000_000_000_000, time: 60, changes: 15 }];
    let profile = Profile { limits, node_id: vec![b'~'; 20], ..profile() };
    let name = Name { charging_id: u32::MAX, ggsn: [255; 4] };
    let mut run = Run(Node::fresh(profile));
    let start = Start { flags: 3, apn: vec![b'z'; 63], ..start() };
    run.say(0, What::Activate(name, Box::new(start)));
    let mut output = Vec::new();
    for at in 0..15 {
        for _ in 0..3 {
            run.say(9, What::Traffic(name, u32::MAX, u32::MAX));
        }
        output = run.say(9, change(at, name));
    }
    output
}

/// "No record passes 1,024 octets."
#[test]
fn largest_record() {
    let size = record_of_15(|at, name| What::Qos(name, [at as u8 % 2; 5])).len();
    assert!(size - 2 <= 1024, "{size}");
    assert!(size > 870, "{size}");
}

/// Fourteen profiles of 17 octets are not written.
#[test]
fn largest_record_without_qos_changes() {
    let with = record_of_15(|at, name| What::Qos(name, [at as u8 % 2; 5]));
    let without = record_of_15(|_, _| What::Tariff);
    assert_eq!(without.len(), with.len() - 14 * 17);
    let list = values(values(body(&without)).get(0xAF));
    assert_eq!(list.0.len(), 15);
    for (at, (_, contents)) in list.0.iter().enumerate() {
        assert_eq!(values(contents).tags().contains(&0xA2), at == 0);
    }
}

/// A QoS change between tariffs: "the reader fills the rest in from the last
/// one written".
#[test]
fn qos_only_where_it_is_new() {
    let other = [5, 0, 0, 9, 18];
    let limits = vec![Limits { volume: 1000, time: 60, changes: 15 }];
    let mut run = Run::with(Profile { limits, ..profile() }, start());
    assert_eq!(run.say(1, What::Tariff), []);
    assert_eq!(run.say(2, What::Qos(NAME, other)), []);
    assert_eq!(run.say(3, What::Tariff), []);
    assert_eq!(run.say(3, What::Tariff), []);
    assert_eq!(run.say(4, What::Qos(NAME, QOS)), []);
    let output = run.say(5, What::Release(NAME, 0));
    let found = values(body(&output));
    containers(
        &found,
        &[
            (&QOS, &[0], &[0], 1, "00 01 01 00 00 01 2B 00 00"),
            (&QOS, &[0], &[0], 0, "00 01 01 00 00 02 2B 00 00"),
            (&other, &[0], &[0], 1, "00 01 01 00 00 03 2B 00 00"),
            (&other, &[0], &[0], 1, "00 01 01 00 00 03 2B 00 00"),
            (&other, &[0], &[0], 0, "00 01 01 00 00 04 2B 00 00"),
            (&QOS, &[0], &[0], 2, "00 01 01 00 00 05 2B 00 00"),
        ],
    );
    let list = values(found.get(0xAF));
    let written: Vec<bool> = list.0.iter().map(|c| values(c.1).tags().contains(&0xA2)).collect();
    assert_eq!(written, [true, false, true, false, false, true]);
}
