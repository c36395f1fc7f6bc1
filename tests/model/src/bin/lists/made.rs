//! A case's list: what sort it is, and what is known of it without its octets
//! being read.

use crate::whole::{self, Whole};
use crate::{cuts, fields, garbage, lengths, names, parts};
use charging_model::cdr::Cdr;
use charging_model::count::{of_values, Count, Fault, Refused, STEP};
use charging_model::event::Name;
use charging_model::random::Random;

pub const WHOLE: &str = "whole list";

pub struct Made {
    pub sort: &'static str,
    pub name: Name,
    pub list: Vec<u8>,
    /// The values of the records, where the list is whole.
    pub records: Option<Vec<Cdr>>,
    /// The answer, where it is known from how the list was made.
    pub known: Option<Result<Count, Refused>>,
    /// Where the damaged record begins, if it is one.
    pub begin: Option<usize>,
}

impl Made {
    fn new(sort: &'static str, name: Name, list: Vec<u8>) -> Made {
        Made { sort, name, list, records: None, known: None, begin: None }
    }
}

fn whole_list(random: &mut Random) -> Made {
    let whole = whole::any(random);
    let mut made = Made::new(WHOLE, whole.name, whole.entries().concat());
    made.known = Some(Ok(of_values(&whole.records, whole.name)));
    made.records = Some(whole.records);
    made
}

fn cut_list(random: &mut Random) -> Made {
    loop {
        let whole = whole::any(random);
        if let Some((sort, list, refused)) = cuts::cut(random, &whole) {
            let mut made = Made::new(sort, whole.name, list);
            made.known = Some(Err(refused));
            return made;
        }
    }
}

/// The place of an S-CDR of the asked name: one of them, or the last.
fn of_name(random: &mut Random, whole: &Whole) -> usize {
    let is = |record: &Cdr| record.s().is_some_and(|record| record.name == whole.name);
    let places: Vec<usize> =
        (0..whole.records.len()).filter(|at| is(&whole.records[*at])).collect();
    match random.percent(50) {
        true => random.pick(&places),
        false => *places.last().expect("a record of the name"),
    }
}

/// What is known of a list in which the record at a place, which begins at an
/// octet, has a sort of damage where a step lands.
fn known(sort: usize, whole: &Whole, place: usize, begin: usize) -> Option<Result<Count, Refused>> {
    let refused = |fault, at| Some(Err(Refused { fault, at }));
    match sort {
        0..=2 => refused(Fault::Mark, begin),
        3 | 5..=7 | 11 => refused(Fault::Value, begin + 2),
        4 => {
            // an S-CDR is stepped past, and an M-CDR has no GGSN
            let mut others = whole.records.clone();
            others.remove(place);
            Some(Ok(of_values(&others, whole.name)))
        }
        10 => Some(Ok(of_values(&whole.records, whole.name))),
        _ => None,
    }
}

fn of_lengths(random: &mut Random) -> Made {
    let whole = whole::with_name(random);
    let mut entries = whole.entries();
    let sort = random.below(lengths::SORTS.len() as u64) as usize;
    let place = match random.percent(50) {
        true => of_name(random, &whole),
        false => random.below(entries.len() as u64) as usize,
    };
    let begin = entries[..place].concat().len();
    entries[place] = lengths::damaged(random, sort, &entries[place]);
    let mut made = Made::new(lengths::SORTS[sort], whole.name, entries.concat());
    made.known = known(sort, &whole, place, begin);
    made.begin = Some(begin);
    made
}

fn of_fields(random: &mut Random) -> Made {
    let whole = whole::with_name(random);
    let mut entries = whole.entries();
    let sort = random.below(fields::SORTS.len() as u64) as usize;
    let place = of_name(random, &whole);
    let mut parts = parts::fields(&entries[place]);
    // the record may have another name, behind which nothing is looked at
    let name = match random.percent(85) {
        true => whole.name,
        false => names::other_id(random, whole.name),
    };
    fields::damage(random, sort, &mut parts, whole.name);
    let begin = entries[..place].concat().len();
    entries[place] = parts::joined(0xA0, &parts);
    let mut made = Made::new(fields::SORTS[sort], name, entries.concat());
    made.begin = Some(begin);
    made
}

fn with_tail(random: &mut Random) -> Made {
    let whole = whole::with_name(random);
    let mut list = whole.entries().concat();
    list.extend(lengths::tail(random));
    Made::new(lengths::TAIL, whole.name, list)
}

fn changed(random: &mut Random) -> Made {
    let whole = whole::with_name(random);
    let mut list = whole.entries().concat();
    let sort = random.below(garbage::SORTS.len() as u64) as usize;
    garbage::changed(random, sort, &mut list);
    Made::new(garbage::SORTS[sort], whole.name, list)
}

fn of_garbage(random: &mut Random) -> Made {
    let name = names::any(random);
    match random.below(6) {
        0 => Made::new(garbage::ANY, name, garbage::any(random)),
        1 => Made::new(garbage::FRAMED, name, garbage::framed(random)),
        _ => Made::new(garbage::FIELDS, name, garbage::fields(random, name)),
    }
}

/// Every sort of list.
pub fn sorts() -> Vec<&'static str> {
    let mut all = vec![WHOLE];
    all.extend(cuts::SORTS);
    all.extend(lengths::SORTS);
    all.push(lengths::TAIL);
    all.extend(fields::SORTS);
    all.extend(garbage::SORTS);
    all.extend([garbage::ANY, garbage::FRAMED, garbage::FIELDS]);
    all
}

pub fn any(random: &mut Random) -> Made {
    match random.below(100) {
        0..=43 => whole_list(random),
        44..=55 => cut_list(random),
        56..=67 => of_lengths(random),
        68..=85 => of_fields(random),
        86..=87 => with_tail(random),
        88..=93 => changed(random),
        _ => of_garbage(random),
    }
}

/// A window for a list: often none; if the list is longer than a step's octets,
/// often one that makes several turns of it.
pub fn window(random: &mut Random, made: &Made) -> usize {
    let long = made.list.len() > STEP;
    if !random.percent(if long { 60 } else { 12 }) {
        return 0;
    }
    let (step, length) = (STEP as u64, made.list.len() as u64);
    let window = match (random.below(12), made.begin) {
        (0, _) => random.between(1, step - 1),
        (1..=3, _) => step,
        (4 | 5, _) => random.between(step, step + 100),
        (6, _) if long => length,
        (7, _) if long => length - 1,
        // all of it but its last octet is in hand at first
        (8..=11, Some(begin)) if made.sort == lengths::LONGEST => begin as u64 + step - 1,
        // the damaged record is the last of a turn, or the first of the next
        (8..=10, Some(begin)) => (begin as u64 + random.between(step - 2, step + 1)).max(step),
        _ => random.between(step, 4_000),
    };
    window as usize
}
