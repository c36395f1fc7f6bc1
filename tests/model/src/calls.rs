//! The file of calls, and the line of output for each.

use crate::batch::{Batch, Batched};
use crate::event::Name;

pub struct Call<'a> {
    pub room: usize,
    pub what: Lent<'a>,
}

/// What a call is lent beside its buffer.
pub enum Lent<'a> {
    Event(&'a [u8]),
    Batch(Batch),
}

/// "FFFF, where a batch follows in its place"
const BATCH: usize = 0xFFFF;

/// The octets of the file that are still to be read.
struct Rest<'a>(&'a [u8]);

impl<'a> Rest<'a> {
    fn octets(&mut self, count: usize) -> Result<&'a [u8], String> {
        if count > self.0.len() {
            return Err("the file of calls ends within a call".into());
        }
        let (taken, rest) = self.0.split_at(count);
        self.0 = rest;
        Ok(taken)
    }

    fn two(&mut self) -> Result<usize, String> {
        Ok(self.octets(2)?.iter().fold(0, |sum, octet| sum << 8 | usize::from(*octet)))
    }

    fn four(&mut self) -> Result<[u8; 4], String> {
        Ok(self.octets(4)?.try_into().unwrap())
    }

    fn number(&mut self) -> Result<u32, String> {
        self.four().map(u32::from_be_bytes)
    }

    /// "each a 2-octet room, a 2-octet length and that many event octets", or
    /// a batch
    fn call(&mut self) -> Result<Call<'a>, String> {
        let room = self.two()?;
        let what = match self.two()? {
            BATCH => Lent::Batch(self.batch()?),
            length => Lent::Event(self.octets(length)?),
        };
        Ok(Call { room, what })
    }

    /// Time, charging ID and GGSN, "how many numbers follow" and "so many
    /// numbers of 4 octets"
    fn batch(&mut self) -> Result<Batch, String> {
        let time = self.number()?;
        let name = Name { charging_id: self.number()?, ggsn: self.four()? };
        let count = self.two()?;
        let volumes = (0..count).map(|_| self.number()).collect::<Result<_, _>>()?;
        Ok(Batch { time, name, volumes })
    }
}

pub fn read(octets: &[u8]) -> Result<Vec<Call<'_>>, String> {
    let mut rest = Rest(octets);
    let mut calls = Vec::new();
    while !rest.0.is_empty() {
        calls.push(rest.call()?);
    }
    Ok(calls)
}

fn put_two(calls: &mut Vec<u8>, number: usize) {
    calls.extend_from_slice(&u16::try_from(number).unwrap().to_be_bytes());
}

pub fn append(calls: &mut Vec<u8>, room: usize, event: &[u8]) {
    assert!(event.len() < BATCH);
    put_two(calls, room);
    put_two(calls, event.len());
    calls.extend_from_slice(event);
}

pub fn append_batch(calls: &mut Vec<u8>, room: usize, batch: &Batch) {
    put_two(calls, room);
    put_two(calls, BATCH);
    calls.extend_from_slice(&batch.time.to_be_bytes());
    calls.extend_from_slice(&batch.name.charging_id.to_be_bytes());
    calls.extend_from_slice(&batch.name.ggsn);
    put_two(calls, batch.volumes.len());
    for volume in &batch.volumes {
        calls.extend_from_slice(&volume.to_be_bytes());
    }
}

pub fn hex(octets: &[u8]) -> String {
    const DIGITS: &[u8; 16] = b"0123456789ABCDEF";
    let mut text = String::with_capacity(octets.len() * 2);
    for octet in octets {
        text.push(DIGITS[usize::from(octet >> 4)] as char);
        text.push(DIGITS[usize::from(octet & 15)] as char);
    }
    text
}

/// "the answer (decimal), the written length (decimal) and the written octets
/// in upper-case hex, with a space between"
pub fn line(answer: u8, written: &[u8]) -> String {
    format!("{answer} {} {}\n", written.len(), hex(written))
}

/// The same of a batch, after its word, with how many pairs were applied.
pub fn batch_line(done: &Batched) -> String {
    let Batched { answer, applied, output, .. } = done;
    format!("batch {answer} {applied} {} {}\n", output.len(), hex(output))
}
