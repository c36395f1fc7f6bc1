//! The three limits of a record, and the sets of them: document 02, W6. Words
//! in quotes are that request's, or 01's.

/// "Keep up to 8 sets of the three limits"
pub const SETS: usize = 8;
/// "an edition not one higher, or with none above 65,535"
pub const LAST_EDITION: u16 = 65_535;

/// What a record is closed by: octets, seconds, changes.
#[derive(Clone, Copy, Debug, PartialEq, Eq, PartialOrd, Ord)]
pub struct Limits {
    pub volume: u64,
    pub time: u32,
    pub changes: u8,
}

pub const MOST_VOLUME: u64 = 1_000_000_000_000;
pub const MOST_TIME: u32 = 604_800;
pub const MOST_CHANGES: u8 = 15;

impl Limits {
    /// "volume limit 1..1,000,000,000,000 octets; time limit 1..604,800 s;
    /// change limit 1..15"
    pub fn in_range(&self) -> bool {
        (1..=MOST_VOLUME).contains(&self.volume)
            && (1..=MOST_TIME).contains(&self.time)
            && (1..=MOST_CHANGES).contains(&self.changes)
    }
}

/// A set of limits as it is in force, "each with an edition from 1".
#[derive(Clone, Copy, Debug, PartialEq, Eq)]
pub struct Set {
    pub edition: u16,
    pub limits: Limits,
}

impl Set {
    /// "A fresh node is given all it has, .. edition 1"
    pub fn first(limits: Limits) -> Set {
        Set { edition: 1, limits }
    }

    pub fn in_range(&self) -> bool {
        self.edition >= 1 && self.limits.in_range()
    }

    /// "the next edition"; after the last one there is none.
    pub fn next_edition(&self) -> Option<u16> {
        (self.edition < LAST_EDITION).then(|| self.edition + 1)
    }
}
