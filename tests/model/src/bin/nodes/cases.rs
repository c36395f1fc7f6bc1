//! The file of cases that the C program reads, and the file of results that it
//! writes. Numbers are little-endian.
//!
//! case:   1 octet, 0 for an event and 1 for a batch; the node as a difference
//!         from all zero; the event or the batch; 2 octets room, 1 octet fill
//! event:  2 octets length, the event
//! batch:  4 octets charging ID, 4 octets GGSN, 4 octets time; 2 octets how
//!         many numbers, these, of 4 octets each
//! result: 1 octet answer; of a batch 8 octets how many pairs were applied;
//!         8 octets written length; the node as a difference from the one
//!         before; the area around the buffer, likewise
//!
//! A difference: 2 octets how many are the same, 2 octets how many follow,
//! these; and so on, up to two numbers of 0.

use crate::stored::{Stored, OCTETS};
use charging_model::batch::Batch;
use charging_model::event::Name;

/// Octets before and after the buffer, which a call may not touch.
pub const GUARD: usize = 16;

/// What a call is lent beside its buffer.
#[derive(Clone)]
pub enum Lent {
    Event(Vec<u8>),
    Batch(Batch),
}

pub struct Case {
    pub node: Stored,
    pub lent: Lent,
    pub room: usize,
    pub fill: u8,
}

/// What a call answers and leaves: the node's fields, and the buffer between
/// its guards. No pair is applied by an event.
#[derive(Debug, PartialEq, Eq)]
pub struct Outcome {
    pub answer: u8,
    pub applied: u64,
    pub written: u64,
    pub node: Vec<u8>,
    pub area: Vec<u8>,
}

/// The buffer between its guards before a call; no two neighbours are equal.
pub fn area(room: usize, fill: u8) -> Vec<u8> {
    (0..GUARD + room + GUARD).map(|at| fill.wrapping_add((at * 7) as u8)).collect()
}

fn put_difference(file: &mut Vec<u8>, before: &[u8], after: &[u8]) {
    assert_eq!(before.len(), after.len());
    let mut put = |same: usize, octets: &[u8]| {
        file.extend((same as u16).to_le_bytes());
        file.extend((octets.len() as u16).to_le_bytes());
        file.extend(octets);
    };
    let mut at = 0;
    while at < after.len() {
        let same = (at..after.len()).take_while(|i| before[*i] == after[*i]).count();
        let from = at + same;
        let other = (from..after.len()).take_while(|i| before[*i] != after[*i]).count();
        if other > 0 {
            put(same, &after[from..from + other]);
        }
        at = from + other;
    }
    put(0, &[]);
}

fn put_lent(file: &mut Vec<u8>, lent: &Lent) {
    match lent {
        Lent::Event(event) => {
            file.extend((event.len() as u16).to_le_bytes());
            file.extend(event);
        }
        Lent::Batch(Batch { time, name, volumes }) => {
            let head = [name.charging_id, u32::from_be_bytes(name.ggsn), *time];
            file.extend(head.map(u32::to_le_bytes).concat());
            file.extend((volumes.len() as u16).to_le_bytes());
            file.extend(volumes.iter().flat_map(|volume| volume.to_le_bytes()));
        }
    }
}

pub fn put_case(file: &mut Vec<u8>, case: &Case) {
    file.push(matches!(case.lent, Lent::Batch(_)).into());
    put_difference(file, &[0; OCTETS], &case.node.octets());
    put_lent(file, &case.lent);
    file.extend((case.room as u16).to_le_bytes());
    file.push(case.fill);
}

/// The result that the C program would write of this outcome.
pub fn put_result(file: &mut Vec<u8>, case: &Case, outcome: &Outcome) {
    file.push(outcome.answer);
    if matches!(case.lent, Lent::Batch(_)) {
        file.extend(outcome.applied.to_le_bytes());
    }
    file.extend(outcome.written.to_le_bytes());
    put_difference(file, &case.node.octets(), &outcome.node);
    put_difference(file, &area(case.room, case.fill), &outcome.area);
}

/// A file that is read from its start.
pub struct File<'a>(pub &'a [u8]);

impl<'a> File<'a> {
    pub fn is_empty(&self) -> bool {
        self.0.is_empty()
    }

    fn octets(&mut self, count: usize) -> Option<&'a [u8]> {
        if count > self.0.len() {
            return None;
        }
        let (taken, left) = self.0.split_at(count);
        self.0 = left;
        Some(taken)
    }

    fn octet(&mut self) -> Option<u8> {
        Some(self.octets(1)?[0])
    }

    fn short(&mut self) -> Option<usize> {
        Some(u16::from_le_bytes(self.octets(2)?.try_into().ok()?).into())
    }

    fn number(&mut self) -> Option<u32> {
        Some(u32::from_le_bytes(self.octets(4)?.try_into().ok()?))
    }

    fn long(&mut self) -> Option<u64> {
        Some(u64::from_le_bytes(self.octets(8)?.try_into().ok()?))
    }

    fn difference(&mut self, octets: &mut [u8]) -> Option<()> {
        let mut at = 0;
        loop {
            let (same, other) = (self.short()?, self.short()?);
            if other == 0 {
                return (same == 0).then_some(());
            }
            at += same;
            octets.get_mut(at..at + other)?.copy_from_slice(self.octets(other)?);
            at += other;
        }
    }

    fn event(&mut self) -> Option<Vec<u8>> {
        let length = self.short()?;
        Some(self.octets(length)?.to_vec())
    }

    fn batch(&mut self) -> Option<Batch> {
        let name = Name { charging_id: self.number()?, ggsn: self.number()?.to_be_bytes() };
        let time = self.number()?;
        let count = self.short()?;
        let volumes = (0..count).map(|_| self.number()).collect::<Option<_>>()?;
        Some(Batch { time, name, volumes })
    }

    /// Nothing where the file ends within a case.
    pub fn case(&mut self) -> Option<Case> {
        let mut node = [0; OCTETS];
        let batch = self.octet()? == 1;
        self.difference(&mut node)?;
        let node = Stored::of_octets(&node);
        let lent = match batch {
            true => Lent::Batch(self.batch()?),
            false => Lent::Event(self.event()?),
        };
        Some(Case { node, lent, room: self.short()?, fill: self.octet()? })
    }

    /// Nothing where the file ends within a result, or is none.
    pub fn result(&mut self, case: &Case) -> Option<Outcome> {
        let answer = self.octet()?;
        let applied = match case.lent {
            Lent::Event(_) => 0,
            Lent::Batch(_) => self.long()?,
        };
        let written = self.long()?;
        let mut node = case.node.octets();
        self.difference(&mut node)?;
        let mut area = area(case.room, case.fill);
        self.difference(&mut area)?;
        Some(Outcome { answer, applied, written, node, area })
    }
}
