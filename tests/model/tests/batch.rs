//! A batch (02, W2) against the same traffic events, and document 01's session
//! with its report given as one.

use charging_model::batch::{batch, Batch, Batched};
use charging_model::event::{octets, Name, Start, What};
use charging_model::limits::{Limits, Set};
use charging_model::node::{Node, MOST_ACCEPTED};
use charging_model::profile::Profile;
use charging_model::random::Random;
use charging_model::step::step;

const ROOM: usize = 20_000;
const NAME: Name = Name { charging_id: 1, ggsn: [10, 0, 0, 2] };

/// Document 01's session: its profile, and the node after its activation.
fn active() -> Node {
    let profile = Profile {
        sgsn: [10, 0, 0, 1],
        limits: vec![Limits { volume: 1000, time: 60, changes: 2 }],
        offset: 0,
        node_id: Vec::new(),
    };
    let start = Start {
        flags: 0,
        imsi: [0x00, 0x01, 0x01, 0x21, 0x43, 0x65, 0x87, 0xF9],
        pdp_type: [0xF1, 0x21],
        address: [10, 0, 0, 3],
        qos: [1, 3, 2, 4, 0],
        set: 1,
        apn: b"a".to_vec(),
    };
    said(&Node::fresh(profile), 0, What::Activate(NAME, Box::new(start))).0
}

/// The node and the output of an event that is accepted.
fn said(node: &Node, time: u32, what: What) -> (Node, Vec<u8>) {
    let done = step(node, &octets(time, &what), ROOM);
    assert_eq!(done.answer, 0);
    (done.node, done.output)
}

fn reports(time: u32, volumes: &[u32]) -> Batch {
    Batch { time, name: NAME, volumes: volumes.to_vec() }
}

/// "nothing applied", and the node as given.
fn refused(node: &Node, reports: &Batch, room: usize) -> u8 {
    let done = batch(node, reports, room);
    assert_eq!((done.applied, &done.node, done.output.len()), (0, node, 0));
    done.answer
}

#[test]
fn session_with_its_report_as_a_batch() {
    let (node, _) = said(&active(), 5, What::Traffic(NAME, 400, 599));
    let done = batch(&active(), &reports(5, &[400, 599]), 0);
    assert_eq!((done.answer, done.applied, done.output.len()), (0, 1, 0));
    assert_eq!(done.node, node);
    let (_, output) = said(&done.node, 6, What::Release(NAME, 0));
    assert_eq!(output.len(), 113);
    // "AF 29 30 27 A2 0F .. 83 02 01 90 84 02 02 57 85 01 02"
    let volumes = [0x83, 0x02, 0x01, 0x90, 0x84, 0x02, 0x02, 0x57, 0x85, 0x01, 0x02];
    assert!(output.windows(volumes.len()).any(|part| part == volumes));
}

/// "Instead at 6: 0 up, 1 down closes number 1, cause 16": here with pairs
/// before it and after it.
#[test]
fn closing_in_the_middle() {
    let (node, _) = said(&active(), 5, What::Traffic(NAME, 400, 599));
    let (closed, output) = said(&node, 6, What::Traffic(NAME, 0, 1));
    let done = batch(&node, &reports(6, &[0, 0, 0, 1, 7, 8]), output.len());
    assert_eq!((done.answer, done.applied), (0, 3));
    assert_eq!(done.output, output);
    let record = done.records[0].s().unwrap();
    assert_eq!((record.cause, record.number), (16, Some(1)));
    let (mut after, _) = said(&closed, 6, What::Traffic(NAME, 7, 8));
    after.accepted += 1; // the pair of nothing
    assert_eq!(done.node, after);

    // One octet less, and the pair of nothing alone is kept.
    let done = batch(&node, &reports(6, &[0, 0, 0, 1, 7, 8]), output.len() - 1);
    assert_eq!((done.answer, done.applied, done.output.len()), (11, 1, 0));
    assert_eq!(done.node, said(&node, 6, What::Traffic(NAME, 0, 0)).0);
}

/// "Each pair writes into the room left; a refusal keeps the applied pairs'
/// node, output and written length"
#[test]
fn room_ends_after_some_records() {
    let node = active();
    let list = reports(9, &[1000, 0, 0, 1001, 5, 5, 999, 1]);
    let whole = batch(&node, &list, ROOM);
    assert_eq!((whole.answer, whole.applied, whole.records.len()), (0, 4, 3));
    assert_eq!(batch(&node, &list, whole.output.len()), whole);
    let two = batch(&node, &reports(9, &list.volumes[..6]), ROOM);
    for room in two.output.len()..whole.output.len() {
        let done = batch(&node, &list, room);
        assert_eq!((done.answer, done.applied), (11, 3));
        assert_eq!((&done.output, &done.node), (&two.output, &two.node));
    }
    assert_eq!(refused(&node, &list, 0), 11);
}

// ---- refusals ----

#[test]
fn empty_list() {
    let (node, _) = said(&active(), 5, What::Tick);
    for time in [0, 4, 5, 6, 3_155_759_999, 3_155_760_000, u32::MAX] {
        for charging_id in [1, 2] {
            let name = Name { charging_id, ..NAME };
            let empty = Batch { time, name, volumes: Vec::new() };
            assert_eq!(refused(&node, &empty, 0), 0);
        }
    }
}

/// "after 13 and before all else"
#[test]
fn order_of_the_numbers() {
    let (node, _) = said(&active(), 5, What::Tick);
    let other = Name { charging_id: 2, ..NAME };
    let with =
        |time: u32, name: Name, volumes: &[u32]| Batch { time, name, volumes: volumes.into() };
    let asked = [
        (with(5, NAME, &[]), 0),
        (with(5, NAME, &[1]), 14),
        (with(5, NAME, &[1, 2, 3]), 14),
        (with(5, NAME, &[1000, 0, 1]), 14),
        (with(4, NAME, &[1000, 0, 1]), 14),
        (with(4, other, &[1]), 14),
        (with(4, other, &[1, 1]), 6),
        (with(3_155_760_000, NAME, &[1, 1]), 6),
        (with(5, other, &[1000, 0]), 8),
        (with(5, NAME, &[1000, 0]), 11),
    ];
    for (list, answer) in &asked {
        assert_eq!(refused(&node, list, 0), *answer, "{list:?}");
    }
    let mut last = node.clone();
    last.accepted = MOST_ACCEPTED;
    for (list, answer) in &asked {
        let later = if matches!(*answer, 8 | 11) { 7 } else { *answer };
        assert_eq!(refused(&last, list, 0), later, "{list:?}");
    }
    last.accepted += 1;
    for (list, _) in &asked {
        assert_eq!(refused(&last, list, ROOM), 13, "{list:?}");
    }
}

/// 7 in the middle: the pairs up to the last event that may be accepted.
#[test]
fn events_run_out() {
    let mut node = active();
    node.accepted = MOST_ACCEPTED - 2;
    let done = batch(&node, &reports(5, &[1, 2, 3, 4, 5, 6, 7, 8]), ROOM);
    assert_eq!((done.answer, done.applied), (7, 2));
    assert_eq!(done.node.accepted, MOST_ACCEPTED);
    assert_eq!(done.node, batch(&node, &reports(5, &[1, 2, 3, 4]), ROOM).node);
}

// ---- any batch on any node ----

/// The same traffic events, each a call of its own, up to the first refused.
fn one_by_one(node: &Node, reports: &Batch, room: usize) -> Batched {
    let (mut node, mut answer, mut applied) = (node.clone(), 0, 0);
    let (mut output, mut records) = (Vec::new(), Vec::new());
    for pair in reports.volumes.chunks(2) {
        let event = octets(reports.time, &What::Traffic(reports.name, pair[0], pair[1]));
        let done = step(&node, &event, room - output.len());
        answer = done.answer;
        node = done.node;
        output.extend(done.output);
        records.extend(done.records);
        if answer != 0 {
            break;
        }
        applied += 1;
    }
    Batched { answer, applied, node, output, records }
}

fn volume(random: &mut Random, limit: u64) -> u32 {
    let part = match random.below(6) {
        0 => 0,
        1 => limit,
        2 => limit - 1,
        _ => random.sized(limit),
    };
    part.min(u32::MAX.into()) as u32
}

fn limits(random: &mut Random) -> Limits {
    let volume = random.pick(&[1, 2, 1000, 70_000, 1 << 33, 1_000_000_000_000]);
    Limits { volume, time: 60, changes: random.between(1, 15) as u8 }
}

/// Some event of a session, such as a sound node takes or refuses.
fn event(random: &mut Random, node: &Node, name: Name) -> Vec<u8> {
    let qos = [random.below(6) as u8, 0, 0, 0, 0];
    let limit = node.sets[0].limits.volume;
    let what = match random.below(9) {
        0 | 1 => {
            let imsi = [0x21, 0x43, 0x65, 0xF7, 0xFF, 0xFF, 0xFF, 0xFF];
            let (flags, apn) = (random.below(4) as u8, b"ship".to_vec());
            let (pdp_type, address) = ([0xF1, 0x21], [0; 4]);
            let start = Start { flags, imsi, pdp_type, address, qos, set: 1, apn };
            What::Activate(name, Box::new(start))
        }
        2 => What::Traffic(name, volume(random, limit), volume(random, limit)),
        3 | 4 => What::Qos(name, qos),
        5 => What::Tariff,
        6 if random.percent(20) => What::Release(name, 0),
        7 => What::Replace(1, Set { edition: node.sets[0].edition + 1, limits: limits(random) }),
        _ => What::Tick,
    };
    octets(node.clock + random.below(3) as u32, &what)
}

#[test]
fn the_same_as_events_one_by_one() {
    let mut random = Random::new(14);
    let mut met = [0; 15];
    let (mut stopped, mut kept) = (0, 0);
    for round in 0..400 {
        let mut profile = active().profile;
        profile.limits = vec![limits(&mut random)];
        let mut node = Node::fresh(profile);
        if round % 4 == 3 {
            node.accepted = MOST_ACCEPTED - random.below(60);
        }
        for _ in 0..40 {
            let name = Name { charging_id: random.below(4) as u32, ..NAME };
            let event = event(&mut random, &node, name);
            node = step(&node, &event, ROOM).node;
            assert!(node.sound());
            let limit = node.sets[0].limits.volume;
            let pairs = random.sized(9) as usize;
            let volumes = (0..2 * pairs).map(|_| volume(&mut random, limit)).collect();
            let time = match random.below(8) {
                0 => node.clock.saturating_sub(1),
                _ => node.clock + random.below(3) as u32,
            };
            let list = Batch { time, name, volumes };
            let room = random.sized(2000) as usize;
            let done = batch(&node, &list, room);
            assert_eq!(done, one_by_one(&node, &list, room));
            assert!(done.node.sound());
            assert_eq!(done.node.accepted, node.accepted + done.applied as u64);
            met[usize::from(done.answer)] += 1;
            stopped += usize::from(done.answer != 0 && done.applied > 0);
            kept += usize::from(done.answer != 0 && !done.output.is_empty());
            if random.percent(50) {
                node = done.node;
            }
        }
    }
    for answer in [0, 6, 7, 8, 11] {
        assert!(met[answer] > 100, "answer {answer}: {}", met[answer]);
    }
    assert!(stopped > 100 && kept > 100, "{stopped}, {kept}");
}
