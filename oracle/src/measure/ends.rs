//! The two searches for byte 10 as measured cases, each over 65,536 bytes from one line end to the next.

use super::{discard, Round};
use crate::sheet::MAX_BYTES;
use std::hint::black_box;

/// The position of the first byte 10 at or after a start, or none.
pub type Search = fn(&[u8], usize) -> Option<usize>;

/// How far a byte 10 lies from the one before it; the length of the sheet where it is the last byte alone.
const APART: [(&str, usize); 4] =
    [("nowhere", usize::MAX), ("at the end", MAX_BYTES), ("every 88 bytes", 88), ("every 3 bytes", 3)];

/// A round finds every byte 10, and that there is no other.
pub fn cases(search: Search) -> Vec<(String, Round)> {
    APART.iter().map(|&(name, apart)| (name.to_string(), round(sheet(apart), search))).collect()
}

fn sheet(apart: usize) -> Vec<u8> {
    (1..=MAX_BYTES).map(|place| if place % apart == 0 { b'\n' } else { b'a' }).collect()
}

fn round(bytes: Vec<u8>, search: Search) -> Round {
    Box::new(move || {
        let mut from = 0;
        while let Some(at) = search(black_box(&bytes), from) {
            from = at + 1;
        }
        discard(from);
    })
}
