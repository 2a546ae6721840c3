//! Sheets that end in one bad line, as long as the rest of the sheet: where several rows may stand, each is looked for there.

use super::super::corners::{node, slot};
use super::unbound;
use crate::sheet::print::print;
use crate::sheet::{Node, Sheet, Type};

/// The sheet of these nodes up to a length, and then a line of one letter up to a size.
fn then_line(nodes: Vec<Node>, without: usize, letter: u8, size: usize) -> Vec<u8> {
    let mut bytes = print(&Sheet::of(nodes));
    bytes.truncate(bytes.len() - without);
    bytes.resize(size - 1, letter);
    bytes.push(b'\n');
    bytes
}

pub fn after_node(size: usize) -> Vec<u8> {
    then_line(vec![node(1, 0, "bed", &[])], 0, b'x', size)
}

/// The last two rows of the sheet, a U row and a V row, give way to the line.
pub fn as_binding(size: usize) -> Vec<u8> {
    let bound = slot("ward", Type::Struct(1, vec![unbound(1, 1)]));
    then_line(vec![node(1, 0, "bed", &["T"]).slots([bound])], 46, b'U', size)
}

pub fn after_words(size: usize) -> Vec<u8> {
    let text = slot("name", Type::Plain(12)).default(12, 0, true);
    then_line(vec![node(1, 0, "bed", &[]).slots([text])], 0, b'x', size)
}
