//! Sheets at every bound of document 01 and of request N2 and one past it, each with its name and with the answer that
//! they and request N5 give it, written down here by hand.

mod columns;
mod letters;
mod lines;
mod order;

pub(super) use order::{beginnings, one_line};

use crate::sheet::print::numbers;
use crate::sheet::read::Refusal;

pub struct Bound {
    pub name: String,
    pub bytes: Vec<u8>,
    /// None where the sheet is admitted.
    pub expected: Option<Refusal>,
}

pub fn all() -> Vec<Bound> {
    let mut bounds = Bounds(Vec::new());
    columns::add(&mut bounds);
    lines::add(&mut bounds);
    letters::add(&mut bounds);
    order::add(&mut bounds);
    bounds.0
}

/// The bounds so far.
struct Bounds(Vec<Bound>);

impl Bounds {
    fn bytes(&mut self, name: String, bytes: Vec<u8>, expected: Option<Refusal>) {
        self.0.push(Bound { name, bytes, expected });
    }

    fn passes(&mut self, name: impl Into<String>, lines: &Lines) {
        self.bytes(name.into(), lines.bytes(), None);
    }

    fn refused(&mut self, name: impl Into<String>, lines: &Lines, refusal: Refusal) {
        self.bytes(name.into(), lines.bytes(), Some(refusal));
    }
}

/// A sheet as its lines, without their bytes 10.
#[derive(Clone)]
pub(super) struct Lines(pub(super) Vec<Vec<u8>>);

impl Lines {
    pub(super) fn new() -> Lines {
        Lines(Vec::new())
    }

    /// R and one struct node: what every sheet here begins with. Its next line is the third.
    pub(super) fn start() -> Lines {
        Lines::new().text('R', &[], "::capnp").text('N', &[7, 0, 0, 1, 0, 0, 0], "bed")
    }

    /// The lines of `start` and the F line of a slot, whose type is to follow as line 4.
    pub(super) fn slot() -> Lines {
        Lines::start().text('F', &[3, 65535, 0, 0], "isFree")
    }

    pub(super) fn plain(mut self, letter: char, values: &[u64]) -> Lines {
        self.0.push(numbers(letter, values).into_bytes());
        self
    }

    pub(super) fn text(mut self, letter: char, values: &[u64], text: impl AsRef<[u8]>) -> Lines {
        self.0.push([numbers(letter, values).as_bytes(), b" ", text.as_ref()].concat());
        self
    }

    pub(super) fn typ(self, columns: [u64; 4]) -> Lines {
        self.plain('T', &columns)
    }

    pub(super) fn void_value(self) -> Lines {
        self.plain('V', &[0, 0])
    }

    pub(super) fn and(mut self, more: &Lines) -> Lines {
        self.0.extend(more.0.iter().cloned());
        self
    }

    /// The line that is added next, from 1.
    pub(super) fn next(&self) -> u64 {
        self.0.len() as u64 + 1
    }

    pub(super) fn bytes(&self) -> Vec<u8> {
        self.0.iter().flat_map(|line| [line, &b"\n"[..]].concat()).collect()
    }
}
