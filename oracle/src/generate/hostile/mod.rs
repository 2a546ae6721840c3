//! Sheets of nearly 65,536 bytes that make a careless reader or writer slow: what grows faster than the sheet shows here. Each
//! is made for one walk, and has the longest thing that it can walk over, as often as it can.

mod brands;
mod lines;
mod zeroing;

use super::corners::{node, Corner};
use super::{filled, most};
use crate::sheet::print::print;
use crate::sheet::{Binding, Node, Scope, Sheet, Type, MAX_BYTES};

/// The nodes of a sheet, by how much of it there is.
type Shape = fn(usize) -> Vec<Node>;

/// A sheet of at most so many bytes, which need not be admitted.
type Lines = fn(usize) -> Vec<u8>;

/// Shapes that grow with their sheet.
const GROWING: [(&str, Shape); 31] = [
    ("nest", brands::nest),
    ("nest of scopes", brands::nest_of_scopes),
    ("nest of scopes that bind", brands::nest_of_binds),
    ("nest of scopes that bind around a struct", brands::nest_around_struct),
    ("nest of scopes with long texts", brands::nest_of_scopes_long),
    ("far", brands::far),
    ("far behind long names", brands::far_behind_long_names),
    ("far behind long names with long texts", brands::far_behind_long_names_long),
    ("thousands of parameters", brands::parameters),
    ("thousands of parameters under hundreds of unbound types", brands::parameters_unbound),
    ("thousands of parameters under hundreds of inheriting types", brands::parameters_inherited),
    ("refused before hundreds of unbound types", brands::refused_before_unbound),
    ("refused before hundreds of inheriting types", brands::refused_before_inherited),
    ("one scope doubled hundreds of times", brands::doubled_scopes),
    ("hundreds of scopes off the chain", brands::scopes_off_chain),
    ("scopes off a chain of 16", brands::scopes_off_chain_of_16),
    ("hundreds of bindings", brands::wide_bindings),
    ("types of 64 nodes in one long chain", brands::chain_of_64),
    ("brands over a chain of 16", brands::brands_over_chain_of_16),
    ("brands over the last of 64 nodes", brands::brands_over_last_nodes),
    ("hundreds of G lines", zeroing::group_lines),
    ("hundreds of slots in a group", zeroing::zeroed_slots),
    ("hundreds of slots of one place", zeroing::one_place),
    ("hundreds of slots in a group in itself", zeroing::zeroed_cycle),
    ("hundreds of slots of one place in a group in itself", zeroing::one_place_cycle),
    ("repeats", zeroing::repeats),
    ("16 groups above repeats", zeroing::groups_above_repeats),
    ("U rows in a group in itself", zeroing::unbound_in_itself),
    ("S rows in a group in itself", zeroing::scopes_in_itself),
    ("W rows in a group in itself", zeroing::words_in_itself),
    ("Void slots in a group in itself", zeroing::void_in_itself),
];

/// Sheets that are refused at a line that is as long as the sheet.
const REFUSED: [(&str, Lines); 3] = [
    ("a long line after an N row", lines::after_node),
    ("a long line as a binding", lines::as_binding),
    ("a long line after words", lines::after_words),
];

/// The shapes that do not grow.
fn fixed() -> Vec<Corner> {
    let mut corners = brands::nested();
    let nodes = (1..=64).map(|id| node(id, 0, "bed", &[])).collect();
    corners.push(Corner { name: "64 nodes without fields".to_string(), sheet: Sheet::of(nodes) });
    corners.push(Corner { name: "64 nodes with long numbers".to_string(), sheet: Sheet::of(brands::long_nodes()) });
    corners
}

/// Every sheet that is admitted, as large as it can be.
pub fn all() -> Vec<Corner> {
    let largest = |(name, shape): (&str, Shape)| Corner { name: name.to_string(), sheet: filled(MAX_BYTES, shape) };
    fixed().into_iter().chain(GROWING.into_iter().map(largest)).collect()
}

/// How much there is of a sheet whose growth is measured, and by what the most that it can have is divided.
const PARTS: [(&str, usize); 3] = [("quarter", 4), ("half", 2), ("whole", 1)];

/// Every sheet with its name and how much there is of it: a quarter, a half and the whole of what makes it large.
pub fn measured() -> Vec<(String, &'static str, Vec<u8>)> {
    let mut sheets = Vec::new();
    for (name, shape) in GROWING {
        let count = most(MAX_BYTES, shape);
        for (part, by) in PARTS {
            sheets.push((name.to_string(), part, print(&Sheet::of(shape(count / by)))));
        }
    }
    for (name, lines) in REFUSED {
        for (part, by) in PARTS {
            sheets.push((name.to_string(), part, lines(MAX_BYTES / by)));
        }
    }
    for corner in fixed() {
        sheets.push((corner.name, "whole", print(&corner.sheet)));
    }
    sheets
}

/// A scope that binds these types.
fn binds(id: u64, types: Vec<Type>) -> Scope {
    Scope { id, bindings: Some(types.into_iter().map(Binding::Type).collect()) }
}

/// A scope with so many bindings, none of them bound.
fn unbound(id: u64, count: usize) -> Scope {
    Scope { id, bindings: Some(vec![Binding::Unbound; count]) }
}

fn inherits(id: u64) -> Scope {
    Scope { id, bindings: None }
}

/// Scopes that nothing looks at, each with the longest number that a row can have.
fn long_scopes(count: usize) -> Vec<Scope> {
    vec![inherits(u64::MAX); count]
}
