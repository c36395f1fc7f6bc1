//! A closed record of either sort: "Outer A0" an S-CDR, "Outer A2" an M-CDR.

use crate::mcdr::{self, Mcdr};
use crate::record::{self, Record};

#[derive(Clone, Debug, PartialEq, Eq)]
pub enum Cdr {
    S(Record),
    M(Mcdr),
}

impl Cdr {
    /// Without the mark.
    pub fn octets(&self) -> Vec<u8> {
        match self {
            Cdr::S(record) => record::octets(record),
            Cdr::M(record) => mcdr::octets(record),
        }
    }

    pub fn s(&self) -> Option<&Record> {
        match self {
            Cdr::S(record) => Some(record),
            Cdr::M(_) => None,
        }
    }

    pub fn m(&self) -> Option<&Mcdr> {
        match self {
            Cdr::S(_) => None,
            Cdr::M(record) => Some(record),
        }
    }

    pub fn number(&self) -> Option<u64> {
        match self {
            Cdr::S(record) => record.number,
            Cdr::M(record) => record.number,
        }
    }
}
