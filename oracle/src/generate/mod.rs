//! Sheets to try: valid ones rich in everything, ones at every bound and one past it, ones with faults on one line, and
//! damaged copies.

pub mod bounds;
pub mod corners;
pub mod damage;
pub mod faults;
pub mod full;
pub mod hostile;
mod types;
pub mod valid;

use crate::random::Random;
use crate::sheet::print::print;
use crate::sheet::{Node, Sheet, MAX_BYTES};
use valid::Style;

/// The styles by turns, so that every run has all of them.
pub const STYLES: [Style; 8] = [
    Style { nodes: (1, 4), fields: (0, 6), level: 4, faults: 0, names: 12, deep: false },
    Style { nodes: (1, 4), fields: (1, 6), level: 4, faults: 6, names: 12, deep: false },
    Style { nodes: (2, 10), fields: (0, 4), level: 6, faults: 0, names: 64, deep: false },
    Style { nodes: (2, 10), fields: (0, 4), level: 6, faults: 15, names: 30, deep: false },
    Style { nodes: (12, 20), fields: (0, 2), level: 4, faults: 20, names: 10, deep: false },
    Style { nodes: (1, 5), fields: (1, 3), level: 16, faults: 0, names: 10, deep: true },
    Style { nodes: (3, 20), fields: (0, 2), level: 16, faults: 25, names: 10, deep: true },
    Style { nodes: (40, 64), fields: (0, 1), level: 3, faults: 40, names: 20, deep: false },
];

/// A valid sheet of the style that is the turn's, as its tree and its bytes, small enough to be admitted.
pub fn sheet(random: &mut Random, turn: u64) -> (Sheet, Vec<u8>) {
    let style = &STYLES[(turn % STYLES.len() as u64) as usize];
    let mut sheet = valid::sheet(random, style);
    loop {
        let bytes = print(&sheet);
        if bytes.len() <= MAX_BYTES {
            return (sheet, bytes);
        }
        shorten(&mut sheet);
    }
}

/// Takes a field away, or a node without fields.
fn shorten(sheet: &mut Sheet) {
    let longest = sheet.nodes.iter_mut().max_by_key(|node| node.fields.len()).expect("a sheet has nodes");
    if longest.fields.pop().is_none() {
        sheet.nodes.pop();
    }
}

/// The largest sheet of this shape, of some count of pieces, that is not over `size` bytes.
pub fn filled(size: usize, nodes: impl Fn(usize) -> Vec<Node>) -> Sheet {
    Sheet::of(nodes(most(size, &nodes)))
}

/// Of how many pieces that sheet is.
pub fn most(size: usize, nodes: impl Fn(usize) -> Vec<Node>) -> usize {
    let fits = |count: usize| print(&Sheet::of(nodes(count))).len() <= size;
    let mut count = 1;
    while fits(count * 2) {
        count *= 2;
    }
    let mut step = count / 2;
    while step > 0 {
        if fits(count + step) {
            count += step;
        }
        step /= 2;
    }
    count
}
