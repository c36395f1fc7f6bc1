//! "How many records for this context?": document 02, W7. The count by stepping
//! over the records of a list, whatever its octets, and beside it the answer for
//! records whose values are known.

use crate::cdr::Cdr;
use crate::event::Name;
use crate::record::Record;

/// "No record passes 1,024 octets."
pub const MOST: usize = 1024;
/// A record of that length with its mark: with so many octets in hand a step
/// never meets the end of the part that is in hand.
pub const STEP: usize = MOST + 2;

/// Why a list is refused with 21: "a mark or length that does not fit where a
/// step lands".
#[derive(Clone, Copy, Debug, PartialEq, Eq)]
pub enum Fault {
    /// No record begins here.
    Mark,
    /// The list ends within this record.
    Cut,
    /// No S-CDR or M-CDR of up to 1,024 octets stands here.
    Value,
    /// This field does not end within its record.
    Field,
}

impl Fault {
    pub fn word(self) -> &'static str {
        match self {
            Fault::Mark => "mark",
            Fault::Cut => "cut",
            Fault::Value => "value",
            Fault::Field => "field",
        }
    }
}

/// A refusal with 21, and the octet that it is about.
#[derive(Clone, Copy, Debug, PartialEq, Eq)]
pub struct Refused {
    pub fault: Fault,
    pub at: usize,
}

fn refused<T>(fault: Fault, at: usize) -> Result<T, Refused> {
    Err(Refused { fault, at })
}

/// "how many records a name has in the night's list, and the number the last
/// one carries"
#[derive(Clone, Copy, Debug, Default, PartialEq, Eq)]
pub struct Count {
    pub records: usize,
    pub number: Option<u64>,
}

// ---- the stepping ----

/// "Lengths: shortest definite form", of at most three octets: its value, and
/// how many octets it has.
fn length(octets: &[u8]) -> Option<(usize, usize)> {
    match *octets {
        [low @ 0..=0x7F, ..] => Some((low.into(), 1)),
        [0x81, low @ 0x80..=0xFF, ..] => Some((low.into(), 2)),
        [0x82, high @ 1..=0xFF, low, ..] => Some((u16::from_be_bytes([high, low]).into(), 3)),
        _ => None,
    }
}

/// "Integers: shortest two's complement", not below zero and below 2^64.
fn integer(contents: &[u8]) -> Option<u64> {
    let shortest = match *contents {
        [] => false,
        [0, next, ..] => next >= 0x80,
        [first, ..] => first < 0x80,
    };
    if !shortest {
        return None;
    }
    contents.iter().try_fold(0, |value: u64, octet| {
        let value = value.checked_mul(0x100)?;
        value.checked_add(u64::from(*octet))
    })
}

/// The fields of a record that are left to look at, and where they begin.
struct Fields<'a> {
    octets: &'a [u8],
    at: usize,
}

impl<'a> Fields<'a> {
    /// The next field: any tag octet, a length, and contents within the record.
    fn next(&mut self) -> Result<Option<(u8, &'a [u8])>, Refused> {
        let [tag, behind @ ..] = self.octets else { return Ok(None) };
        let Some((length, octets)) = length(behind) else {
            return refused(Fault::Field, self.at);
        };
        let Some(contents) = behind.get(octets..octets + length) else {
            return refused(Fault::Field, self.at);
        };
        self.octets = &behind[octets + length..];
        self.at += 1 + octets + length;
        Ok(Some((*tag, contents)))
    }

    /// The contents of the first field with this tag; what is left is behind it.
    fn find(&mut self, wanted: u8) -> Result<Option<&'a [u8]>, Refused> {
        while let Some((tag, contents)) = self.next()? {
            if tag == wanted {
                return Ok(Some(contents));
            }
        }
        Ok(None)
    }
}

/// What an S-CDR is to a name.
enum Found {
    Other,
    Of(Option<u64>),
}

fn is_id(contents: &[u8], name: Name) -> bool {
    integer(contents) == Some(u64::from(name.charging_id))
}

fn is_ggsn(contents: &[u8], name: Name) -> bool {
    let [a, b, c, d] = name.ggsn;
    contents == [0x80, 4, a, b, c, d]
}

fn number(contents: &[u8]) -> Option<u64> {
    integer(contents).filter(|number| *number >= 1)
}

/// "looking only at 8A, AB and 95", in this order; behind what tells another
/// name nothing is looked at.
fn look(mut fields: Fields, name: Name) -> Result<Found, Refused> {
    match fields.find(0x8A)? {
        Some(contents) if is_id(contents, name) => {}
        _ => return Ok(Found::Other),
    }
    match fields.find(0xAB)? {
        Some(contents) if is_ggsn(contents, name) => {}
        _ => return Ok(Found::Other),
    }
    let contents = fields.find(0x95)?;
    Ok(Found::Of(contents.and_then(number)))
}

/// A record at the front of octets: its tag, its contents, and how many octets
/// it has with its mark.
struct Entry<'a> {
    tag: u8,
    contents: &'a [u8],
    whole: usize,
}

fn entry(octets: &[u8]) -> Result<Entry<'_>, Refused> {
    let [0xC3, behind @ ..] = octets else { return refused(Fault::Mark, 0) };
    let [second, behind @ ..] = behind else { return refused(Fault::Cut, 0) };
    if *second != 0x5A {
        return refused(Fault::Mark, 0);
    }
    let [tag, behind @ ..] = behind else { return refused(Fault::Cut, 0) };
    if !matches!(tag, 0xA0 | 0xA2) {
        return refused(Fault::Value, 2);
    }
    let Some((length, octets)) = length(behind) else {
        // two octets may be the beginning of a length, three are not
        let fault = if behind.len() < 3 { (Fault::Cut, 0) } else { (Fault::Value, 2) };
        return refused(fault.0, fault.1);
    };
    if 1 + octets + length > MOST {
        return refused(Fault::Value, 2);
    }
    let Some(contents) = behind.get(octets..octets + length) else {
        return refused(Fault::Cut, 0);
    };
    Ok(Entry { tag: *tag, contents, whole: 3 + octets + length })
}

/// How far a list is counted, and what was counted so far.
#[derive(Clone, Copy, Debug, Default, PartialEq, Eq)]
pub struct Tally {
    pub at: usize,
    pub count: Count,
}

/// One step: the record at the front of octets, which begin where the tally is.
fn step(tally: Tally, octets: &[u8], name: Name) -> Result<Tally, Refused> {
    let from_start = |r: Refused| Refused { fault: r.fault, at: tally.at + r.at };
    let entry = entry(octets).map_err(from_start)?;
    let mut count = tally.count;
    if entry.tag == 0xA0 {
        let at = entry.whole - entry.contents.len();
        let fields = Fields { octets: entry.contents, at };
        if let Found::Of(number) = look(fields, name).map_err(from_start)? {
            count = Count { records: count.records + 1, number };
        }
    }
    Ok(Tally { at: tally.at + entry.whole, count })
}

/// Counts on over a part of a list, which begins where the tally is: to its end
/// where the list ends with it, else as long as a step's octets are in hand.
pub fn go_on(tally: Tally, part: &[u8], ended: bool, name: Name) -> Result<Tally, Refused> {
    let mut tally = tally;
    let begin = tally.at;
    loop {
        let octets = &part[tally.at - begin..];
        if octets.is_empty() || !ended && octets.len() < STEP {
            return Ok(tally);
        }
        tally = step(tally, octets, name)?;
    }
}

/// A whole list.
pub fn count(list: &[u8], name: Name) -> Result<Count, Refused> {
    Ok(go_on(Tally::default(), list, true, name)?.count)
}

/// A whole list in turns, each with at most so many octets in hand; what each
/// turn came to is handed over.
pub fn in_turns(
    list: &[u8],
    name: Name,
    window: usize,
    mut turn: impl FnMut(&Tally),
) -> Result<Count, Refused> {
    let mut tally = Tally::default();
    loop {
        let end = list.len().min(tally.at + window);
        let next = go_on(tally, &list[tally.at..end], end == list.len(), name)?;
        if next.at == tally.at {
            return Ok(next.count);
        }
        tally = next;
        turn(&tally);
    }
}

// ---- reading it all ----

/// "the answer equals the one from reading it all": of records whose values are
/// known, without their octets.
pub fn of_values(records: &[Cdr], name: Name) -> Count {
    let of_name: Vec<&Record> =
        records.iter().filter_map(Cdr::s).filter(|record| record.name == name).collect();
    Count { records: of_name.len(), number: of_name.last().and_then(|record| record.number) }
}
