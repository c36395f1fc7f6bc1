//! One call with a minute of reports: document 02, W2. Words in quotes are
//! that request's.

use crate::cdr::Cdr;
use crate::event::{octets, Name, What};
use crate::node::Node;
use crate::step::step_of_sound;

/// "a lent list of 32-bit numbers, uplink and downlink by turns, for one
/// context at one time"
#[derive(Clone, Debug, PartialEq, Eq)]
pub struct Batch {
    pub time: u32,
    pub name: Name,
    pub volumes: Vec<u32>,
}

impl Batch {
    /// "the same traffic events": the event of each pair, in the list's order.
    pub fn events(&self) -> Vec<Vec<u8>> {
        let pairs = self.volumes.chunks_exact(2);
        pairs.map(|pair| self.event(pair[0], pair[1])).collect()
    }

    fn event(&self, uplink: u32, downlink: u32) -> Vec<u8> {
        octets(self.time, &What::Traffic(self.name, uplink, downlink))
    }
}

// ---- "Refusals: .. after 13 and before all else .. each pair's own numbers follow" ----

type Row = (u8, fn(&Node, &Batch) -> bool);

/// The rows that look at no pair.
pub const TABLE: [Row; 2] = [(13, node_unsound), (14, odd_length)];

/// 13 "node breaks a rule under "A sound node"" (01), with an empty list too
pub fn node_unsound(node: &Node, _: &Batch) -> bool {
    !node.sound()
}

/// 14 "a list of odd length is 14, after 13 and before all else, nothing
/// applied"
pub fn odd_length(_: &Node, batch: &Batch) -> bool {
    batch.volumes.len() % 2 != 0
}

/// The number of the first row that applies, the first `passed` rows left out.
fn refusal(passed: usize, node: &Node, batch: &Batch) -> Option<u8> {
    TABLE[passed..].iter().find(|row| row.1(node, batch)).map(|row| row.0)
}

// ---- the call ----

/// "saying how many pairs were applied and which number stopped it"; the
/// records are those of the output.
#[derive(Debug, PartialEq, Eq)]
pub struct Batched {
    pub answer: u8,
    pub applied: usize,
    pub node: Node,
    pub output: Vec<u8>,
    pub records: Vec<Cdr>,
}

/// "One call does what the same traffic events do one by one"
pub fn batch(node: &Node, batch: &Batch, room: usize) -> Batched {
    batch_past(0, node, batch, room)
}

/// The same of a node that is taken to be sound, whatever it holds: what comes
/// after 13.
pub fn batch_of_sound(node: &Node, batch: &Batch, room: usize) -> Batched {
    batch_past(1, node, batch, room)
}

fn batch_past(passed: usize, node: &Node, batch: &Batch, room: usize) -> Batched {
    // "An empty list changes nothing, the clock included."
    let nothing = Batched {
        answer: 0,
        applied: 0,
        node: node.clone(),
        output: Vec::new(),
        records: Vec::new(),
    };
    match refusal(passed, node, batch) {
        Some(answer) => Batched { answer, ..nothing },
        None => one_by_one(nothing, batch, room),
    }
}

/// "stopping at the first refused pair .. Each pair writes into the room left;
/// a refusal keeps the applied pairs' node, output and written length"
fn one_by_one(mut done: Batched, batch: &Batch, room: usize) -> Batched {
    for event in batch.events() {
        let left = room.saturating_sub(done.output.len());
        let one = step_of_sound(&done.node, &event, left);
        if one.answer != 0 {
            done.answer = one.answer;
            break;
        }
        done.applied += 1;
        done.node = one.node;
        done.output.extend(one.output);
        done.records.extend(one.records);
    }
    done
}
