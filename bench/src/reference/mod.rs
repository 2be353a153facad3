//! Two loaders in Rust, written apart from the library and from each other; and the activity page
//! twice, in `page` for its speed and in `plain_page` for its plain words.
//!
//! The fast one (`feed`, `finish`, `estimates`, `write`) is the speed to meet: `direct` takes well
//! formed rows by wide loads and no search, `rows` decides on all others, `registry` is tested and
//! indexed once a call. `feed_ordinary` is the same without `direct`, as ordinary good Rust has it.
//! `plain` is document 01's plain loader, literal and slow; it shares no code with the fast one,
//! not even the calendar.
#![forbid(unsafe_code)]

pub mod calendar;
mod direct;
mod loader;
mod page;
pub mod plain;
pub mod plain_page;
pub mod registry;
mod rows;
mod writer;

pub use loader::{feed, feed_ordinary, finish, fresh, State};
pub use page::page;
pub use writer::{estimates, write, MAX_RECORD};

pub use crate::header::{CELL_WORDS, RECORD_BYTES};

/// The places of a cell's parts.
pub const COUNT: usize = 0;
pub const DATE: usize = 1;
pub const CLOCK: usize = 2;
pub const MARKS: usize = 3;
pub const VALUES: usize = 7;

/// The most bytes that are taken before a finish.
pub const MAX_TAKEN: usize = 200_000_000;
