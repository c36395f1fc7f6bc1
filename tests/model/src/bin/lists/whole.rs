//! Whole lists of records within the rules.

use crate::cases::MOST_OCTETS;
use crate::names;
use crate::records::{m_cdr, number, s_cdr, Size};
use charging_model::cdr::Cdr;
use charging_model::clock::LAST_SECOND;
use charging_model::event::Name;
use charging_model::random::Random;

/// The mark of a record.
pub const MARK: [u8; 2] = [0xC3, 0x5A];

/// Records, and the name that is asked for.
pub struct Whole {
    pub name: Name,
    pub records: Vec<Cdr>,
}

impl Whole {
    /// The records with their marks.
    pub fn entries(&self) -> Vec<Vec<u8>> {
        self.records.iter().map(|record| [&MARK[..], &record.octets()].concat()).collect()
    }

    /// Records from the end are left out of a list that is too long for a case.
    fn fitting(mut self) -> Whole {
        while self.entries().concat().len() > MOST_OCTETS {
            self.records.pop();
        }
        self
    }
}

/// How a list is drawn: of a hundred records so many are M-CDRs, and of a
/// hundred S-CDRs so many have the name that is asked for.
struct Draw {
    name: Name,
    others: Vec<Name>,
    of_m: u64,
    of_name: u64,
    size: Size,
    /// Of the asked name: numbered 1, 2, 3, or by any numbers or none.
    in_order: bool,
    numbered: u64,
}

fn draw(random: &mut Random, count: u64) -> Draw {
    let name = names::any(random);
    let others = random.pick(if count < 17 { &[1, 2, 2, 4] } else { &[2, 4, 30, 60] });
    Draw {
        name,
        others: names::others(random, name, others),
        of_m: random.pick(&[0, 0, 0, 20, 20, 40, 60, 100]),
        of_name: random.pick(&[0, 10, 30, 60, 60, 100]),
        size: random.pick(&[Size::Least, Size::Small, Size::Small, Size::Small, Size::Any]),
        in_order: random.percent(25),
        numbered: 0,
    }
}

/// A duration: often the charging ID that is asked for, where the clock has it.
fn duration(random: &mut Random, name: Name) -> u32 {
    match name.charging_id <= LAST_SECOND && random.percent(50) {
        true => name.charging_id,
        false => random.sized(LAST_SECOND.into()) as u32,
    }
}

fn size(random: &mut Random, draw: &Draw) -> Size {
    match random.below(40) {
        0 => Size::Most,
        1 => Size::Any,
        _ => draw.size,
    }
}

fn record(random: &mut Random, draw: &mut Draw) -> Cdr {
    if random.percent(draw.of_m) {
        let duration = duration(random, draw.name);
        return Cdr::M(m_cdr(random, duration));
    }
    let asked = random.percent(draw.of_name);
    let name = if asked { draw.name } else { random.pick(&draw.others) };
    let number = match asked && draw.in_order {
        true => {
            draw.numbered += 1;
            Some(draw.numbered)
        }
        false => random.percent(55).then(|| number(random)),
    };
    let size = size(random, draw);
    Cdr::S(s_cdr(random, name, number, size))
}

/// A list of so many records.
pub fn of_length(random: &mut Random, count: u64) -> Whole {
    let mut draw = draw(random, count);
    let records = (0..count).map(|_| record(random, &mut draw)).collect();
    Whole { name: draw.name, records }.fitting()
}

/// A list of any length, mostly a short one.
pub fn any(random: &mut Random) -> Whole {
    if random.below(1000) == 0 {
        return longest(random);
    }
    let count = match random.below(100) {
        0..=2 => 0,
        3..=84 => random.between(1, 6),
        85..=96 => random.between(7, 16),
        _ => random.between(17, 60),
    };
    of_length(random, count)
}

/// As many records as a case has room for.
fn longest(random: &mut Random) -> Whole {
    let mut draw = draw(random, 90);
    draw.size = Size::Most;
    let records = (0..90).map(|_| record(random, &mut draw)).collect();
    let mut whole = Whole { name: draw.name, records };
    // an M-CDR is shorter
    whole.records.retain(|record| record.s().is_some());
    while whole.entries().concat().len() < MOST_OCTETS {
        let of = if random.percent(20) { draw.name } else { random.pick(&draw.others) };
        whole.records.push(Cdr::S(s_cdr(random, of, None, Size::Most)));
    }
    whole.fitting()
}

/// A short list with some record in it, one S-CDR of the asked name at least.
pub fn with_name(random: &mut Random) -> Whole {
    let count = if random.percent(85) { random.between(0, 4) } else { random.between(5, 14) };
    let mut whole = of_length(random, count);
    let number = random.percent(60).then(|| number(random));
    let record = Cdr::S(s_cdr(random, whole.name, number, Size::Small));
    let at = random.between(0, count) as usize;
    whole.records.insert(at, record);
    whole
}
