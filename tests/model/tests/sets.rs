//! Limits by charging characteristics (02, W6): sets of limits, their editions,
//! and which limits a record goes by.

use charging_model::batch::{batch, Batch};
use charging_model::event::{octets, Name, Start, What};
use charging_model::limits::{Limits, Set, LAST_EDITION, SETS};
use charging_model::node::{Context, Node, MOST_ACCEPTED, SLOTS};
use charging_model::profile::Profile;
use charging_model::step::{step, TABLE};

const ROOM: usize = 20_000;
const NAME: Name = Name { charging_id: 1, ggsn: [10, 0, 0, 2] };
const QOS: [u8; 5] = [1, 3, 2, 4, 0];
const OTHER_QOS: [u8; 5] = [0; 5];
/// Document 01's limits.
const PRINTED: Limits = Limits { volume: 1000, time: 60, changes: 2 };

fn unhex(text: &str) -> Vec<u8> {
    text.split_whitespace().map(|pair| u8::from_str_radix(pair, 16).unwrap()).collect()
}

/// Document 01's profile with these sets.
fn profile(limits: &[Limits]) -> Profile {
    Profile { sgsn: [10, 0, 0, 1], limits: limits.to_vec(), offset: 0, node_id: Vec::new() }
}

fn start(set: u8) -> Box<Start> {
    Box::new(Start {
        flags: 0,
        imsi: [0x00, 0x01, 0x01, 0x21, 0x43, 0x65, 0x87, 0xF9],
        pdp_type: [0xF1, 0x21],
        address: [10, 0, 0, 3],
        qos: QOS,
        set,
        apn: b"a".to_vec(),
    })
}

fn replacement(set: u8, edition: u16, limits: Limits) -> What {
    What::Replace(set, Set { edition, limits })
}

struct Run(Node);

impl Run {
    fn with(limits: &[Limits]) -> Run {
        Run(Node::fresh(profile(limits)))
    }

    /// A node with document 01's limits, and its activation.
    fn active() -> Run {
        let mut run = Run::with(&[PRINTED]);
        run.idle(0, What::Activate(NAME, start(1)));
        run
    }

    /// The causes and numbers of the records of an event that is taken.
    fn say(&mut self, time: u32, what: What) -> Vec<(u8, Option<u64>)> {
        let done = step(&self.0, &octets(time, &what), ROOM);
        assert_eq!(done.answer, 0, "{what:?}");
        assert!(done.node.sound());
        assert_eq!((done.node.clock, done.node.accepted), (time, self.0.accepted + 1));
        self.0 = done.node;
        let records = done.records.iter().map(|record| record.s().unwrap());
        records.map(|record| (record.cause, record.number)).collect()
    }

    fn idle(&mut self, time: u32, what: What) {
        assert_eq!(self.say(time, what), []);
    }

    /// The next edition of a set: "It cuts nothing and closes nothing".
    fn replace(&mut self, time: u32, set: u8, limits: Limits) {
        let (slots, edition) = (self.0.slots.clone(), self.0.set(set).unwrap().edition + 1);
        self.idle(time, replacement(set, edition, limits));
        assert_eq!(self.0.slots, slots);
        assert_eq!(self.0.set(set), Some(&Set { edition, limits }));
    }

    /// The answer to octets; a refusal changes nothing.
    fn answer_to(&self, event: &[u8]) -> u8 {
        let done = step(&self.0, event, 0);
        if done.answer != 0 {
            assert_eq!(done.node, self.0);
            assert_eq!(done.output, []);
        }
        done.answer
    }

    fn answer(&self, time: u32, what: &What) -> u8 {
        self.answer_to(&octets(time, what))
    }

    fn context(&self, slot: usize) -> &Context {
        self.0.slots[slot].as_ref().unwrap()
    }
}

// ---- layout ----

#[test]
fn octets_of_a_replacement() {
    let limits = Limits { volume: 0x01_0203_0405, time: 0x0607, changes: 8 };
    let event = octets(0x11, &replacement(3, 0x0A0B, limits));
    assert_eq!(
        event,
        unhex("C3 5E 0C 00 00 00 11 03 0A 0B 00 00 00 01 02 03 04 05 00 00 06 07 08")
    );
    let run = Run::with(&[PRINTED]);
    let taken = octets(0, &replacement(1, 2, limits));
    assert_eq!(taken.len(), 23);
    assert_eq!(run.answer_to(&taken), 0);
    assert_eq!(run.answer_to(&taken[..22]), 4);
    assert_eq!(run.answer_to(&[&taken[..], &[0]].concat()), 4);
}

/// "Activation gains one octet naming its set, before n (length 37 + n)"
#[test]
fn octets_of_an_activation() {
    let event = octets(0, &What::Activate(NAME, start(1)));
    let expected = unhex(
        "C3 5E 01 00 00 00 00 00 00 00 01 0A 00 00 02
         00 00 01 01 21 43 65 87 F9 F1 21 0A 00 00 03
         01 03 02 04 00 01 01 61",
    );
    assert_eq!(event, expected);
    assert_eq!(event.len(), 38);
    let run = Run::with(&[PRINTED]);
    assert_eq!(run.answer_to(&event), 0);
    assert_eq!(run.answer_to(&event[..37]), 4);
    assert_eq!(run.answer_to(&event[..36]), 4);
}

/// 01's profile, and one of eight sets; not one without a set, or of nine.
#[test]
fn texts_of_profiles() {
    let text = |lines: &str| format!("sgsn 10.0.0.1\n{lines}offset 0\nnode-id\n").into_bytes();
    let line = |at: usize| format!("limits {} {} {}\n", 1000 + at, 60 + at, 1 + at);
    for sets in 0..=9 {
        let lines: String = (0..sets).map(line).collect();
        let read = Profile::read(&text(&lines));
        assert_eq!(read.is_some(), (1..=8).contains(&sets), "{sets}");
        if let Some(read) = read {
            assert_eq!(read.limits.len(), sets);
            assert_eq!(read.limits[0], Limits { volume: 1000, time: 60, changes: 1 });
            assert_eq!(read.text(), text(&lines));
        }
    }
    let bad = [
        "limits 0 60 2\n",
        "limits 1000000000001 60 2\n",
        "limits 1000 0 2\n",
        "limits 1000 604801 2\n",
        "limits 1000 60 0\n",
        "limits 1000 60 16\n",
        "limits 1000 60\n",
        "limits 1000 60 2 1\n",
        "limits  1000 60 2\n",
        "limits 1000 60 2 \n",
        "limits 1000 060 2\n",
        "limits\n",
        "volume-limit 1000\ntime-limit 60\nchange-limit 2\n",
    ];
    for lines in bad {
        assert_eq!(Profile::read(&text(lines)), None, "{lines}");
        assert_eq!(Profile::read(&text(&(line(0) + lines))), None, "{lines}");
    }
    let most = "limits 1000000000000 604800 15\nlimits 1 1 1\n";
    assert!(Profile::read(&text(most)).is_some());
}

// ---- "A record keeps the limits it opened with until it closes" ----

#[test]
fn volume_limit_replaced_by_a_lower_one() {
    let mut run = Run::active();
    run.idle(1, What::Traffic(NAME, 300, 200));
    run.replace(2, 1, Limits { volume: 100, ..PRINTED });
    run.idle(3, What::Traffic(NAME, 0, 0));
    run.idle(3, What::Traffic(NAME, 250, 249));
    assert_eq!(run.say(4, What::Traffic(NAME, 0, 1)), [(16, Some(1))]);
    run.idle(5, What::Traffic(NAME, 99, 0));
    assert_eq!(run.say(5, What::Traffic(NAME, 1, 0)), [(16, Some(2))]);
}

#[test]
fn volume_limit_replaced_by_a_higher_one() {
    let mut run = Run::active();
    run.replace(2, 1, Limits { volume: 3000, ..PRINTED });
    run.idle(3, What::Traffic(NAME, 999, 0));
    assert_eq!(run.say(4, What::Traffic(NAME, 1, 0)), [(16, Some(1))]);
    run.idle(4, What::Traffic(NAME, 1000, 1999));
    assert_eq!(run.say(5, What::Traffic(NAME, 0, 1)), [(16, Some(2))]);
}

#[test]
fn time_limit_replaced() {
    for (new, second) in [(10, 70), (90, 150)] {
        let mut run = Run::active();
        run.replace(30, 1, Limits { time: new, ..PRINTED });
        run.idle(59, What::Tick);
        assert_eq!(run.say(60, What::Tick), [(17, Some(1))]);
        run.idle(second - 1, What::Tick);
        assert_eq!(run.say(second, What::Tick), [(17, Some(2))]);
    }
}

#[test]
fn change_limit_replaced() {
    let mut run = Run::active();
    run.idle(1, What::Qos(NAME, OTHER_QOS));
    run.replace(2, 1, Limits { changes: 1, ..PRINTED });
    assert_eq!(run.context(0).changes, 1);
    assert_eq!(run.say(3, What::Tariff), [(19, Some(1))]);
    assert_eq!(run.say(3, What::Tariff), [(19, Some(2))]);
    run.replace(4, 1, Limits { changes: 3, ..PRINTED });
    assert_eq!(run.say(5, What::Qos(NAME, QOS)), [(19, Some(3))]);
    run.idle(6, What::Tariff);
    run.idle(6, What::Qos(NAME, OTHER_QOS));
    assert_eq!(run.say(6, What::Tariff), [(19, Some(4))]);
}

/// Two replacements while a record is open: "the next takes the current
/// edition", whatever the one between was.
#[test]
fn replaced_twice_while_open() {
    let mut run = Run::active();
    run.replace(1, 1, Limits { volume: 1, time: 1, changes: 1 });
    run.replace(2, 1, Limits { volume: 50, time: 500, changes: 5 });
    assert_eq!(run.context(0).limits, PRINTED);
    run.idle(3, What::Traffic(NAME, 999, 0));
    run.idle(3, What::Tariff);
    run.idle(59, What::Tick);
    assert_eq!(run.say(59, What::Management(NAME)), [(20, Some(1))]);
    assert_eq!(run.context(0).limits, Limits { volume: 50, time: 500, changes: 5 });
    assert_eq!(run.say(59, What::Traffic(NAME, 50, 0)), [(16, Some(2))]);
}

/// What was accepted "before an activation give[s] the editions it starts from".
#[test]
fn replaced_before_an_activation() {
    let mut run = Run::with(&[PRINTED, PRINTED]);
    run.replace(0, 2, Limits { volume: 7, ..PRINTED });
    run.idle(1, What::Activate(NAME, start(2)));
    assert_eq!(run.say(2, What::Traffic(NAME, 7, 0)), [(16, Some(1))]);
    assert_eq!(run.say(3, What::Release(NAME, 0)), [(0, Some(2))]);
    run.idle(4, What::Activate(NAME, start(1)));
    run.idle(5, What::Traffic(NAME, 7, 992));
    assert_eq!(run.say(6, What::Traffic(NAME, 1, 0)), [(16, Some(1))]);
}

/// "One call does what the same traffic events do one by one": the first record
/// closes by the limits before, the next by those after.
#[test]
fn batch_across_editions() {
    for (new, volumes) in [(10, [900, 100, 9, 1, 10, 0]), (2000, [999, 1, 1000, 999, 0, 1])] {
        let mut run = Run::active();
        run.replace(1, 1, Limits { volume: new, ..PRINTED });
        let volumes: Vec<u32> = volumes.iter().flat_map(|volume| [*volume, 0]).collect();
        let done = batch(&run.0, &Batch { time: 2, name: NAME, volumes }, ROOM);
        let sums = done.records.iter().map(|record| record.s().unwrap().containers[0].uplink);
        let sums: Vec<u64> = sums.collect();
        assert_eq!((done.answer, done.applied), (0, 6));
        assert_eq!(sums, if new == 10 { vec![1000, 10, 10] } else { vec![1000, 2000] });
        assert_eq!(done.node.slots[0].as_ref().unwrap().limits.volume, new);
        assert!(done.node.sound());
    }
}

// ---- sets ----

/// Eight sets, a context of each: every one goes by its own.
#[test]
fn eight_sets() {
    let limits = |at: u8| Limits {
        volume: 1000 * u64::from(at),
        time: 100 * u32::from(at),
        changes: 1 + at,
    };
    let sets: Vec<Limits> = (1..=8).map(limits).collect();
    let mut run = Run::with(&sets);
    let name = |at: u8| Name { charging_id: at.into(), ..NAME };
    for at in 1..=8 {
        run.idle(0, What::Activate(name(at), start(at)));
        assert_eq!(run.context(usize::from(at) - 1).limits, limits(at));
    }
    for at in 1..=8 {
        run.idle(0, What::Traffic(name(at), 1000 * u32::from(at) - 1, 0));
    }
    for round in 1..=18 {
        let closed = run.say(0, What::Tariff);
        let due = (1..=8).filter(|set| round % (1 + set) == 0).count();
        assert_eq!(closed.len(), due, "{round}");
        assert!(closed.iter().all(|record| record.0 == 19));
    }
    for at in 1..=8u32 {
        let closed = run.say(100 * at, What::Tick);
        // a record of set 3 is closed at 300 and at 600
        let due = (1..=8).filter(|set| at % set == 0).count();
        assert_eq!(closed.len(), due, "{at}");
    }
    for at in 1..=8 {
        run.replace(900, at, Limits { volume: 5, ..limits(at) });
        assert_eq!(run.say(900, What::Management(name(at))).len(), 1);
        for other in 1..=8 {
            let volume = run.context(other - 1).limits.volume;
            assert_eq!(volume == 5, other <= usize::from(at), "{at}, {other}");
        }
    }
}

/// "18 for an unknown set", in both events and for every number of sets.
#[test]
fn unknown_sets() {
    for sets in 1..=SETS {
        let run = Run::with(&vec![PRINTED; sets]);
        for set in 0..=255u8 {
            let has = (1..=sets).contains(&usize::from(set));
            let activated = run.answer(0, &What::Activate(NAME, start(set)));
            assert_eq!(activated, if has { 0 } else { 18 }, "{set} of {sets}");
            let replaced = run.answer(0, &replacement(set, 2, PRINTED));
            assert_eq!(replaced, if has { 0 } else { 18 }, "{set} of {sets}");
        }
    }
}

// ---- editions ----

#[test]
fn editions_one_after_another() {
    let mut run = Run::with(&[PRINTED, PRINTED]);
    for edition in 2..=300u16 {
        let others = [0, 1, edition - 1, edition + 1, edition ^ 0x100, edition.swap_bytes()];
        for other in others.into_iter().chain([LAST_EDITION]).filter(|other| *other != edition) {
            assert_eq!(run.answer(0, &replacement(1, other, PRINTED)), 19, "{other}");
        }
        run.replace(0, 1, PRINTED);
        assert_eq!(run.0.sets[0].edition, edition);
    }
    assert_eq!(run.0.sets[1].edition, 1);
    assert_eq!(run.answer(0, &replacement(2, 301, PRINTED)), 19);
    run.replace(0, 2, PRINTED);
}

/// "or with none above 65,535": the last edition stays.
#[test]
fn last_edition() {
    let mut run = Run::with(&[PRINTED]);
    run.0.sets[0].edition = LAST_EDITION - 1;
    run.replace(0, 1, Limits { volume: 1, ..PRINTED });
    assert!(run.0.sound());
    for edition in 0..=LAST_EDITION {
        assert_eq!(run.answer(0, &replacement(1, edition, PRINTED)), 19, "{edition}");
    }
    run.idle(0, What::Activate(NAME, start(1)));
    assert_eq!(run.say(0, What::Traffic(NAME, 1, 0)), [(16, Some(1))]);
}

// ---- refusals ----

/// "a limit out of range is 5"
#[test]
fn limits_out_of_range() {
    let run = Run::with(&[PRINTED]);
    let most = 1_000_000_000_000;
    let asked = [
        (Limits { volume: 0, ..PRINTED }, 5),
        (Limits { volume: 1, ..PRINTED }, 0),
        (Limits { volume: most, ..PRINTED }, 0),
        (Limits { volume: most + 1, ..PRINTED }, 5),
        (Limits { volume: u64::MAX, ..PRINTED }, 5),
        (Limits { time: 0, ..PRINTED }, 5),
        (Limits { time: 1, ..PRINTED }, 0),
        (Limits { time: 604_800, ..PRINTED }, 0),
        (Limits { time: 604_801, ..PRINTED }, 5),
        (Limits { time: u32::MAX, ..PRINTED }, 5),
        (Limits { changes: 0, ..PRINTED }, 5),
        (Limits { changes: 1, ..PRINTED }, 0),
        (Limits { changes: 15, ..PRINTED }, 0),
        (Limits { changes: 16, ..PRINTED }, 5),
        (Limits { changes: 255, ..PRINTED }, 5),
    ];
    for (limits, answer) in asked {
        assert_eq!(run.answer(0, &replacement(1, 2, limits)), answer, "{limits:?}");
    }
}

/// "both after 7 and before 8"
#[test]
fn order_of_the_rows() {
    let rows: Vec<u8> = TABLE.iter().map(|row| row.0).collect();
    assert_eq!(rows[5..11], [5, 6, 7, 18, 19, 8]);
    let mut run = Run::with(&[PRINTED]);
    for at in 0..SLOTS as u32 {
        let name = Name { charging_id: at, ..NAME };
        run.idle(5, What::Activate(name, start(1)));
    }
    let wrong = Limits { volume: 0, ..PRINTED };
    let other = Name { charging_id: 99, ..NAME };
    let flags = |set| Box::new(Start { flags: 4, ..*start(set) });
    let asked = [
        (4, replacement(2, 1, wrong), 5),
        (4, replacement(2, 1, PRINTED), 6),
        (4, replacement(1, 1, PRINTED), 6),
        (4, replacement(1, 2, PRINTED), 6),
        (5, replacement(2, 1, wrong), 5),
        (5, replacement(1, 1, wrong), 5),
        (5, replacement(2, 1, PRINTED), 18),
        (5, replacement(0, 2, PRINTED), 18),
        (5, replacement(255, 2, PRINTED), 18),
        (5, replacement(1, 1, PRINTED), 19),
        (5, replacement(1, 3, PRINTED), 19),
        (4, What::Activate(other, flags(2)), 5),
        (4, What::Activate(other, start(2)), 6),
        (5, What::Activate(NAME, flags(0)), 5),
        // before 9 and before 10
        (5, What::Activate(NAME, start(2)), 18),
        (5, What::Activate(other, start(0)), 18),
        (5, What::Activate(NAME, start(1)), 9),
        (5, What::Activate(other, start(1)), 10),
    ];
    for (time, what, answer) in &asked {
        assert_eq!(run.answer(*time, what), *answer, "{what:?}");
    }
    run.0.accepted = MOST_ACCEPTED;
    for (time, what, answer) in &asked {
        let later = if matches!(answer, 5 | 6) { *answer } else { 7 };
        assert_eq!(run.answer(*time, what), later, "{what:?}");
    }
    run.0.accepted += 1;
    for (time, what, _) in &asked {
        assert_eq!(run.answer(*time, what), 13, "{what:?}");
    }
}

// ---- a sound node ----

#[test]
fn nothing_but_a_sound_node_is_taken() {
    type Spoil = fn(&mut Node);
    fn open(node: &mut Node) -> &mut Context {
        node.slots[0].as_mut().unwrap()
    }
    let spoil: [Spoil; 22] = [
        |n| n.sets[0].edition = 0,
        |n| n.sets[1].edition = 0,
        |n| n.sets[1].limits.volume = 0,
        |n| n.sets[1].limits.volume = 1_000_000_000_001,
        |n| n.sets[1].limits.time = 0,
        |n| n.sets[1].limits.time = 604_801,
        |n| n.sets[1].limits.changes = 0,
        |n| n.sets[1].limits.changes = 16,
        |n| n.profile.limits[1].volume = 0,
        |n| n.profile.limits[1].time = 604_801,
        |n| n.profile.limits[0].changes = 16,
        |n| n.sets.truncate(1),
        |n| n.sets.push(n.sets[0]),
        |n| (n.sets, n.profile.limits) = (vec![n.sets[0]; 9], vec![PRINTED; 9]),
        |n| open(n).start.set = 0,
        |n| open(n).start.set = 3,
        |n| open(n).start.set = 255,
        |n| open(n).limits.volume = 1_000_000_000_001,
        |n| open(n).limits.time = 0,
        |n| open(n).limits.changes = 16,
        |n| open(n).limits.volume = 500,
        |n| open(n).limits.changes = 1,
    ];
    let mut run = Run::with(&[PRINTED, PRINTED]);
    run.idle(0, What::Activate(NAME, start(2)));
    run.idle(1, What::Traffic(NAME, 500, 0));
    run.idle(1, What::Tariff);
    for (at, spoil) in spoil.iter().enumerate() {
        let mut node = run.0.clone();
        spoil(&mut node);
        assert!(!node.sound(), "change {at}");
        let unsound = Run(node);
        assert_eq!(unsound.answer(1, &What::Tick), 13, "change {at}");
        assert_eq!(unsound.answer_to(&[]), 13, "change {at}");
    }
}

/// The open record's limits need be those of no edition: what it has counted is
/// measured by its own, below or above the set's.
#[test]
fn limits_of_no_edition() {
    let mut run = Run::active();
    run.idle(1, What::Traffic(NAME, 500, 0));
    run.idle(1, What::Tariff);
    for (volume, changes) in [(501, 2), (1_000_000_000_000, 15), (999, 3)] {
        let own = Limits { volume, time: 604_800, changes };
        run.0.slots[0].as_mut().unwrap().limits = own;
        assert!(run.0.sound());
        for limits in [Limits { volume: 1, time: 1, changes: 1 }, PRINTED] {
            run.0.sets[0].limits = limits;
            assert!(run.0.sound());
        }
    }
}
