//! Numbers: each number of each letter at its limits, and each way in which a number can be badly written.

use super::{Bounds, Lines};
use crate::sheet::read::Refusal;
use crate::sheet::value_width;

const U16: &str = "65535";
const PAST_16: &str = "65536";
const U32: &str = "4294967295";
const PAST_32: &str = "4294967296";
const U64: &str = "18446744073709551615";
const PAST_64: &str = "18446744073709551616";

/// Where the numbers of a line begin.
const COLUMNS: [u64; 7] = [2, 23, 44, 65, 86, 107, 128];

pub fn add(bounds: &mut Bounds) {
    nodes(bounds);
    fields(bounds);
    types(bounds);
    scopes(bounds);
    values(bounds);
    badly_written(bounds);
}

/// A sheet with one line whose numbers are tried, and which of its lines that is, from 1.
struct Tried {
    name: &'static str,
    lines: Lines,
    line: usize,
}

impl Tried {
    /// The sheet with `text` right-justified in place of a number, from 0.
    fn with(&self, place: usize, text: &str) -> Lines {
        let mut lines = self.lines.clone();
        let start = 1 + 21 * place;
        lines.0[self.line - 1].splice(start..start + 21, format!("{text:>21}").into_bytes());
        lines
    }

    fn passes(&self, bounds: &mut Bounds, place: usize, texts: &[&str]) {
        for text in texts {
            bounds.passes(format!("{} number {place} {text}", self.name), &self.with(place, text));
        }
    }

    fn refused(&self, bounds: &mut Bounds, place: usize, texts: &[&str]) {
        for text in texts {
            let name = format!("{} number {place} {text}", self.name);
            bounds.refused(name, &self.with(place, text), Refusal::bad_number(self.line as u64, COLUMNS[place]));
        }
    }
}

fn nodes(bounds: &mut Bounds) {
    let node = Tried { name: "N", lines: Lines::start(), line: 2 };
    node.passes(bounds, 0, &["1", U64]);
    node.refused(bounds, 0, &["0", PAST_64]);
    for place in [1, 2] {
        node.passes(bounds, place, &["0", "7", U64]);
        node.refused(bounds, place, &[PAST_64]);
    }
    for place in [3, 4] {
        node.passes(bounds, place, &["0", "1"]);
        node.refused(bounds, place, &["2", U64, PAST_64]);
    }
    node.passes(bounds, 5, &["0", U16]);
    node.refused(bounds, 5, &[PAST_16, PAST_64]);
    node.passes(bounds, 6, &["0", U32]);
    node.refused(bounds, 6, &[PAST_32, PAST_64]);
}

fn fields(bounds: &mut Bounds) {
    let slot = Tried { name: "F", lines: Lines::slot().typ([0, 0, 0, 0]).void_value(), line: 3 };
    slot.passes(bounds, 0, &["0", U32]);
    slot.refused(bounds, 0, &[PAST_32, PAST_64]);
    slot.passes(bounds, 1, &["0", "65534", U16]);
    slot.refused(bounds, 1, &[PAST_16, PAST_64]);
    for place in [2, 3] {
        slot.passes(bounds, place, &["0", "1"]);
        slot.refused(bounds, place, &["2", PAST_64]);
    }
    let group = Tried { name: "G", lines: Lines::start().text('G', &[9, 65535], "place"), line: 3 };
    group.passes(bounds, 0, &["1", U64]);
    group.refused(bounds, 0, &["0", PAST_64]);
    group.passes(bounds, 1, &["0", U16]);
    group.refused(bounds, 1, &[PAST_16, PAST_64]);
}

fn types(bounds: &mut Bounds) {
    let void = Tried { name: "T of Void", lines: Lines::slot().typ([0, 0, 0, 0]).void_value(), line: 4 };
    void.refused(bounds, 0, &["19", "256", PAST_64]);
    for kind in 0..14u64 {
        let plain = Tried { name: "T plain", lines: Lines::slot().typ([kind, 0, 0, 0]).void_value(), line: 4 };
        bounds.passes(format!("T kind {kind}"), &plain.lines);
        for (place, column) in [(1, 23), (2, 44), (3, 65)] {
            let refusal = Refusal::bad_number(4, column);
            bounds.refused(format!("T kind {kind} number {place} 1"), &plain.with(place, "1"), refusal);
        }
    }
    let list = Lines::slot().typ([14, 0, 0, 0]).typ([0, 0, 0, 0]).void_value();
    let list = Tried { name: "T of List", lines: list, line: 4 };
    list.passes(bounds, 0, &["14"]);
    (1..=3).for_each(|place| list.refused(bounds, place, &["1", PAST_64]));
    for (name, kind) in [("T of Enum", 15), ("T of Struct", 16), ("T of Interface", 17)] {
        let node = Tried { name, lines: Lines::slot().typ([kind, 7, 0, 0]).void_value(), line: 4 };
        node.passes(bounds, 1, &["0", "7", U64]);
        node.refused(bounds, 1, &[PAST_64]);
        node.refused(bounds, 2, &[PAST_64]);
        node.refused(bounds, 3, &["1", U64]);
        // A count that fits is free: the line after it is the bad one.
        bounds.refused(format!("{name} number 2 {U64}"), &node.with(2, U64), Refusal::misplaced(5));
        bounds.refused(format!("{name} number 2 1"), &node.with(2, "1"), Refusal::misplaced(5));
    }
    any_pointers(bounds);
}

fn any_pointers(bounds: &mut Bounds) {
    let any = Tried { name: "T of AnyPointer", lines: Lines::slot().typ([18, 0, 0, 0]).void_value(), line: 4 };
    any.passes(bounds, 1, &["0", "1"]);
    any.refused(bounds, 1, &["2", U64, PAST_64]);
    any.refused(bounds, 2, &["1"]);
    any.refused(bounds, 3, &["1"]);
    let parameter = Tried { name: "T of a parameter", lines: Lines::slot().typ([18, 1, 7, 0]).void_value(), line: 4 };
    parameter.passes(bounds, 2, &["0", U64]);
    parameter.refused(bounds, 2, &[PAST_64]);
    parameter.passes(bounds, 3, &["0", U16]);
    parameter.refused(bounds, 3, &[PAST_16, PAST_64]);
}

fn scopes(bounds: &mut Bounds) {
    let inherit = Lines::slot().typ([16, 7, 1, 0]).plain('S', &[7, 0, 0]).void_value();
    let inherit = Tried { name: "S that inherits", lines: inherit, line: 5 };
    inherit.passes(bounds, 0, &["0", U64]);
    inherit.refused(bounds, 0, &[PAST_64]);
    inherit.passes(bounds, 1, &["0", "1"]);
    inherit.refused(bounds, 1, &["2", PAST_64]);
    inherit.refused(bounds, 2, &["1", PAST_64]);
    let bind = Lines::slot().typ([16, 7, 1, 0]).plain('S', &[7, 1, 1]).plain('U', &[]).void_value();
    let bind = Tried { name: "S that binds", lines: bind, line: 5 };
    bind.passes(bounds, 2, &["1"]);
    bind.refused(bounds, 2, &[PAST_64]);
    bounds.refused("S that binds number 2 0", &bind.with(2, "0"), Refusal::misplaced(6));
    bounds.refused("S that binds number 2 2", &bind.with(2, "2"), Refusal::misplaced(7));
    bounds.refused(format!("S that binds number 2 {U64}"), &bind.with(2, U64), Refusal::misplaced(7));
}

fn values(bounds: &mut Bounds) {
    for kind in 0..19u64 {
        let value = Tried { name: "V", lines: Lines::slot().typ([0, 0, 0, 0]).plain('V', &[kind, 0]), line: 5 };
        let width = value_width(kind as u8);
        let largest = (1u128 << width) - 1;
        bounds.passes(format!("V kind {kind} bits {largest}"), &value.with(1, &largest.to_string()));
        let past = (largest + 1).to_string();
        bounds.refused(format!("V kind {kind} bits {past}"), &value.with(1, &past), Refusal::bad_number(5, 23));
    }
    let value = Tried { name: "V", lines: Lines::slot().typ([0, 0, 0, 0]).plain('V', &[0, 0]), line: 5 };
    value.refused(bounds, 0, &["19", PAST_64]);
    let word = Lines::start().text('F', &[0, 65535, 1, 0], "ward").typ([12, 0, 0, 0]).plain('V', &[12, 0]);
    let word = Tried { name: "W", lines: word.plain('W', &[5]), line: 6 };
    word.passes(bounds, 0, &["0", U64]);
    word.refused(bounds, 0, &[PAST_64]);
}

/// What is no number, tried in place of the first and the last of each letter that has numbers.
fn badly_written(bounds: &mut Bounds) {
    let list = Lines::slot().typ([16, 7, 1, 0]).plain('S', &[7, 1, 1]).typ([0, 0, 0, 0]).plain('V', &[16, 0]);
    let word = Lines::start().text('F', &[0, 65535, 1, 0], "ward").typ([12, 0, 0, 0]).plain('V', &[12, 0]);
    let word = word.plain('W', &[5]).text('G', &[9, 1], "place");
    let tried = [
        (Tried { name: "N", lines: Lines::start(), line: 2 }, 6),
        (Tried { name: "F", lines: list.clone(), line: 3 }, 3),
        (Tried { name: "T", lines: list.clone(), line: 4 }, 3),
        (Tried { name: "S", lines: list.clone(), line: 5 }, 2),
        (Tried { name: "V", lines: list, line: 7 }, 1),
        (Tried { name: "W", lines: word.clone(), line: 6 }, 0),
        (Tried { name: "G", lines: word, line: 7 }, 1),
    ];
    let bad =
        ["", "00", "01", "+1", "-1", "1 ", "1_", "0x1", "1a", "\t1", "1\0", "1 1", "/", ":", "999999999999999999999"];
    for (line, last) in &tried {
        line.refused(bounds, 0, &bad);
        if *last > 0 {
            line.refused(bounds, *last, &bad);
        }
    }
}
