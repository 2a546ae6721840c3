//! The tests of the crate.

mod accents;
mod columns;
mod common;
mod examples;
mod fill;
mod header;
mod hostile;
mod in_c;
mod levels;
mod padded;
mod paired;
mod pinned;
mod program;
mod raw;
mod refusals;
mod sheet;
mod verdicts;
mod zeroing;
