//! The sheets of the measured cases: ordinary ones and the worst known, at a quarter, a half and the whole of 65,536 bytes.

use crate::generate::corners::{group, node, slot};
use crate::generate::{filled, hostile};
use crate::sheet::print::print;
use crate::sheet::{Binding, Node, Scope, Sheet, Slot, Type, MAX_BYTES};
use std::path::Path;
use std::{fs, io};

/// Sizes of the ordinary sheets that the whole program is measured on.
const ORDINARY: [(&str, usize); 5] =
    [("1K", 1_024), ("8K", 8_192), ("16K", 16_384), ("32K", 32_768), ("64K", MAX_BYTES)];

/// Sizes at which growth is measured.
const SIZES: [(&str, usize); 3] = [("16K", MAX_BYTES / 4), ("32K", MAX_BYTES / 2), ("64K", MAX_BYTES)];

/// A case's name and how its sheet is made.
type Made = (String, Box<dyn Fn() -> Vec<u8>>);

/// A sheet by its size.
type OfSize = fn(usize) -> Sheet;

/// Writes the sheets that all requests and the program are measured on: ordinary ones as `ordinary/SIZE`, and the worst, of
/// which each has a line: its name, how much of it there is, and its file.
pub fn write_all(folder: &Path) -> io::Result<Vec<String>> {
    for (size, bytes) in ORDINARY {
        write(&folder.join("ordinary").join(size), &print(&ordinary(bytes)))?;
    }
    let mut lines = Vec::new();
    for (name, part, bytes) in hostile::measured() {
        let file = folder.join("worst").join(lines.len().to_string());
        write(&file, &bytes)?;
        lines.push(format!("{name}\t{part}\t{}", file.display()));
    }
    Ok(lines)
}

fn write(file: &Path, bytes: &[u8]) -> io::Result<()> {
    fs::create_dir_all(file.parent().unwrap_or(Path::new(".")))?;
    fs::write(file, bytes)
}

/// The sheets that admission is measured on.
pub fn admitted() -> Vec<Made> {
    let shapes: [(&str, OfSize); 7] = [
        ("ordinary", ordinary),
        ("groups", |size| filled(size, groups)),
        ("groups-one-mark", |size| filled(size, groups_one_mark)),
        ("short-lines", |size| filled(size, short_lines)),
        ("deep-types", |size| filled(size, deep_types)),
        ("parameters", |size| filled(size, parameters)),
        ("words", |size| filled(size, words)),
    ];
    let mut sheets: Vec<Made> = Vec::new();
    for (name, shape) in shapes {
        for (label, size) in SIZES {
            sheets.push((format!("{name}-{label}"), Box::new(move || print(&shape(size)))));
        }
    }
    sheets
}

/// Structs with the fields that schemas have.
fn ordinary(size: usize) -> Sheet {
    filled(size, structs)
}

/// This many fields, in structs of forty.
fn structs(count: usize) -> Vec<Node> {
    let types: [(&str, Type); 10] = [
        ("id", Type::Plain(9)),
        ("wardName", Type::Plain(12)),
        ("isFree", Type::Plain(1)),
        ("status", Type::Enum(1, Vec::new())),
        ("beds", Type::List(Box::new(Type::Struct(1, Vec::new())))),
        ("weight", Type::Plain(11)),
        ("photo", Type::Plain(13)),
        ("rank", Type::Plain(2)),
        ("notes", Type::List(Box::new(Type::Plain(12)))),
        ("ward", Type::Struct(1, Vec::new())),
    ];
    let slots: Vec<Slot> = types
        .iter()
        .cycle()
        .zip(0..count as u32)
        .map(|((name, typ), at)| slot(name, typ.clone()).at(at % 40))
        .collect();
    let first = node(1, 0, "crate::ward_capnp::status", &[]);
    let others =
        slots.chunks(40).zip(2..).map(|(slots, id)| node(id, 1, "crate::ward_capnp::bed", &[]).slots(slots.to_vec()));
    std::iter::once(first).chain(others).collect()
}

fn groups(count: usize) -> Vec<Node> {
    vec![(0..count as u64).fold(node(1, 0, "bed", &[]), |node, id| node.group(group("g", 1_000_000 + id)))]
}

/// Groups whose ids all fall on one of the 2,048 marks by which `sheet::known` tells new ids.
fn groups_one_mark(count: usize) -> Vec<Node> {
    vec![(1..=count as u64).fold(node(1, 0, "bed", &[]), |node, id| node.group(group("g", id * 2_048)))]
}

/// As many lines as a sheet can have: unbound bindings.
fn short_lines(count: usize) -> Vec<Node> {
    let bindings = vec![Binding::Unbound; count];
    vec![node(1, 0, "bed", &[]).slots([slot("ward", Type::Struct(1, vec![Scope { id: 1, bindings: Some(bindings) }]))])]
}

fn deep_types(count: usize) -> Vec<Node> {
    let deepest = (0..15).fold(Type::Plain(12), |inner, _| Type::List(Box::new(inner)));
    vec![node(1, 0, "bed", &[]).slots((0..count).map(|_| slot("beds", deepest.clone())))]
}

fn parameters(count: usize) -> Vec<Node> {
    let mut bed = node(1, 0, "bed", &[]);
    bed.parameters = vec!["T".to_string(); count];
    vec![bed]
}

/// Slots with as many words as there may be.
fn words(count: usize) -> Vec<Node> {
    let mut text = slot("name", Type::Plain(12)).default(12, 0, true);
    text.words = vec![u64::MAX; 25];
    vec![node(1, 0, "bed", &[]).slots(vec![text; count])]
}

/// A group of twelve slots with an inner group; node 1 has it as its first field.
pub fn group_sheet() -> Sheet {
    let slots = |from: u32| (0..12u8).map(move |kind| slot("s", Type::Plain(kind + 1)).at(from + u32::from(kind) / 2));
    let nodes = vec![
        node(1, 0, "bed", &[]).group(group("place", 2)),
        node(2, 1, "place", &[]).slots(slots(0)).group(group("inner", 3)),
        node(3, 2, "inner", &[]).slots(slots(3)),
    ];
    Sheet::of(nodes)
}
