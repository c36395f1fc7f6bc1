//! The rules of document 01, and of the requests of 02 that are in, a second
//! time, in plain Rust, written from the documents alone. Words in quotes are
//! the documents'.

pub mod batch;
pub mod calls;
pub mod cdr;
pub mod clock;
pub mod count;
pub mod event;
pub mod limits;
pub mod mcdr;
pub mod node;
pub mod profile;
pub mod random;
pub mod record;
pub mod step;
pub mod subscriber;
