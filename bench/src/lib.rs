//! Kilnsorrel beside loaders in plain Rust, to compare answers and speed.
//!
//! - `header`: the sizes that the C header tells
//! - `kilnsorrel`: the library's calls, safe to make
//! - `reference`: an independent fast loader, and document 01's plain loader
//! - `sample`: registries and files as they come; `hostile`: as they should not
//! - `rng`: chance that repeats by its seed
//! - `cases`: the cases of crates/vectors as a text
#![deny(unsafe_code)]

pub mod cases;
pub mod header;
pub mod hostile;
pub mod kilnsorrel;
pub mod reference;
pub mod rng;
pub mod sample;

/// A report entry, as all loaders here write it. A unit is a record or a stray run.
#[derive(Clone, Copy, Default, PartialEq, Eq, Debug)]
#[repr(C)]
pub struct Entry {
    /// The unit's first line.
    pub line: u32,
    /// 0 loaded, else why not.
    pub verdict: u32,
    /// The line that decided it.
    pub at: u32,
    /// From 1; 0: unknown.
    pub meter: u32,
    /// YYYYMMDD; 0: unknown.
    pub day: u32,
}
