//! The sheets that are made: records with a slot of every kind with every sort of default, alone and in a union, and
//! records with pointer slots of every type.

/// The kinds that have bits: document 01's number, name, bits, and defaults. 2^31 and 2^63 are -0.0 of the floats.
const KINDS: [(u64, &str, u64, &[u64]); 12] = [
    (1, "bool", 1, &[0, 1]),
    (2, "int8", 8, &[0, 1, 251, 127, 128]),
    (3, "int16", 16, &[0, 1, 65531, 32767, 32768]),
    (4, "int32", 32, &[0, 1, 4294967291, 2147483647, 2147483648]),
    (5, "int64", 64, &[0, 1, u64::MAX - 4, u64::MAX / 2, 1 << 63]),
    (6, "uint8", 8, &[0, 1, 128, 255]),
    (7, "uint16", 16, &[0, 1, 32768, 65535]),
    (8, "uint32", 32, &[0, 1, 1 << 31, u32::MAX as u64]),
    (9, "uint64", 64, &[0, 1, 1 << 63, u64::MAX]),
    // 1.5, -0.0, the least number above 0, infinity, a NaN
    (10, "float32", 32, &[0, 0x3fc0_0000, 1 << 31, 1, 0x7f80_0000, 0xffc0_1234]),
    (11, "float64", 64, &[0, 0x3ff8 << 48, 1 << 63, 1, 0x7ff0 << 48, (0xfff8 << 48) + 99]),
    (15, "enum", 16, &[0, 1, 2, 65535]),
];

const ENUM: &str = "N 90 0 0 0 0 0 0 crate::enums::Whole\n";

/// Pointer types: name, T lines, value's kind, and the words of a default where there is one.
const POINTERS: [(&str, &str, u64, &[u64]); 25] = [
    ("text", "T 12 0 0 0\n", 12, &[146028888065, 6579554]),
    ("data", "T 13 0 0 0\n", 13, &[111669149697, 6579554]),
    ("voids", "T 14 0 0 0\nT 0 0 0 0\n", 14, &[]),
    ("bools", "T 14 0 0 0\nT 1 0 0 0\n", 14, &[]),
    ("int8s", "T 14 0 0 0\nT 2 0 0 0\n", 14, &[]),
    ("int16s", "T 14 0 0 0\nT 3 0 0 0\n", 14, &[]),
    ("int32s", "T 14 0 0 0\nT 4 0 0 0\n", 14, &[]),
    ("int64s", "T 14 0 0 0\nT 5 0 0 0\n", 14, &[]),
    ("uint8s", "T 14 0 0 0\nT 6 0 0 0\n", 14, &[]),
    // 1, 2, 3
    ("uint16s", "T 14 0 0 0\nT 7 0 0 0\n", 14, &[115964116993, 12885032961]),
    ("uint32s", "T 14 0 0 0\nT 8 0 0 0\n", 14, &[]),
    ("uint64s", "T 14 0 0 0\nT 9 0 0 0\n", 14, &[]),
    ("float32s", "T 14 0 0 0\nT 10 0 0 0\n", 14, &[]),
    ("float64s", "T 14 0 0 0\nT 11 0 0 0\n", 14, &[]),
    ("texts", "T 14 0 0 0\nT 12 0 0 0\n", 14, &[]),
    ("datas", "T 14 0 0 0\nT 13 0 0 0\n", 14, &[]),
    ("enums", "T 14 0 0 0\nT 15 90 0 0\n", 14, &[]),
    ("lists", "T 14 0 0 0\nT 14 0 0 0\nT 7 0 0 0\n", 14, &[]),
    ("services", "T 14 0 0 0\nT 17 91 0 0\n", 14, &[]),
    ("points", "T 14 0 0 0\nT 16 80 0 0\n", 14, &[]),
    // one word of data, one pointer, which is null
    ("point", "T 16 80 0 0\n", 16, &[65537 << 32, 77, 0]),
    ("boxed", "T 16 81 1 0\nS 81 1 1\nT 12 0 0 0\n", 16, &[]),
    ("any", "T 18 0 0 0\n", 18, &[]),
    ("parameter", "T 18 1 1 0\n", 18, &[]),
    ("service", "T 17 91 0 0\n", 17, &[]),
];

/// The nodes that pointer slots refer to.
fn pointer_nodes(sheet: &str) -> String {
    format!(
        "N 80 0 0 1 0 0 0 crate::accessors::{sheet}::point\n\
         F 0 65535 1 0 rank\nT 4 0 0 0\nV 4 4294967291\nF 0 65535 0 0 label\nT 12 0 0 0\nV 12 0\n\
         N 81 0 0 1 1 0 0 crate::accessors::{sheet}::boxed\nP Content\n\
         F 0 65535 0 0 content\nT 18 1 81 0\nV 18 0\n\
         N 91 0 0 0 0 0 0 crate::service\n{ENUM}"
    )
}

pub fn sheets() -> Vec<(String, String)> {
    // Each slot has its own bits, or all lie over each other and some over the tag, or behind many others.
    let mut next = 0u64;
    let apart = |_: usize, width: u64| {
        let offset = next.div_ceil(width);
        next = width * (offset + 1);
        offset
    };
    let over = |index: usize, width: u64| (index as u64 * 37) % (640 / width);
    let far = |index: usize, width: u64| (131_072 - 640 + (index as u64 * 37) % 640) / width;
    vec![
        ("plain".into(), data("plain", apart, false)),
        ("union".into(), data("union", over, true)),
        ("far".into(), data("far", far, false)),
        ("pointers".into(), pointers("pointers", false)),
        ("pointer_union".into(), pointers("pointer_union", true)),
    ]
}

/// The R line, and a record's N line: a union's tag stands at its 3rd 16 bits, beside other slots.
fn start(sheet: &str, generic: u64, fields: usize, in_union: bool) -> String {
    let (count, offset) = if in_union { (fields, 3) } else { (0, 0) };
    format!("R crate::runtime\nN 1 0 0 1 {generic} {count} {offset} crate::accessors::{sheet}::record\n")
}

/// A union's members are numbered from 0, but that the last one has the largest number.
fn discriminant(index: usize, count: usize, in_union: bool) -> usize {
    match in_union {
        false => 65535,
        true if index + 1 == count => 65534,
        true => index,
    }
}

/// A record with a slot for each kind, each default, with and without its flag, at the offsets that `place` says.
fn data(sheet: &str, mut place: impl FnMut(usize, u64) -> u64, in_union: bool) -> String {
    let mut slots = vec![];
    for (kind, name, width, defaults) in KINDS {
        for default in defaults {
            slots.extend([0, 1].map(|explicit| (kind, name, width, default, explicit)));
        }
    }
    let count = slots.len() + 1;
    let mut short = start(sheet, 0, count, in_union);
    for (index, (kind, name, width, default, explicit)) in slots.into_iter().enumerate() {
        let (offset, discriminant) = (place(index, width), discriminant(index, count, in_union));
        let id = if kind == 15 { 90 } else { 0 };
        short += &format!("F {offset} {discriminant} {explicit} 0 {name}Default{default}Explicit{explicit}\n");
        short += &format!("T {kind} {id} 0 0\nV {kind} {default}\n");
    }
    let void = discriminant(count - 1, count, in_union);
    short += &format!("F 0 {void} 0 0 nothing\nT 0 0 0 0\nV 0 0\n");
    short + ENUM
}

/// A record with pointer slots of each type, with and without a default, with and without the option annotation.
fn pointers(sheet: &str, in_union: bool) -> String {
    let mut slots = vec![];
    for (name, typ, kind, words) in POINTERS {
        // What is set to a capability can't be cleared in capnp 0.14, so that no other slot may lie over it.
        if in_union && kind == 17 {
            continue;
        }
        for option in if kind == 17 { 0..1 } else { 0..2 } {
            slots.push((name, typ, kind, &[][..], option));
            if !words.is_empty() {
                slots.push((name, typ, kind, words, option));
            }
        }
    }
    let count = slots.len();
    let mut short = start(sheet, 1, count, in_union) + "P Parameter\n";
    for (index, (name, typ, kind, words, option)) in slots.into_iter().enumerate() {
        let (offset, discriminant) = (if in_union { index % 5 } else { index }, discriminant(index, count, in_union));
        let explicit = u64::from(!words.is_empty());
        short += &format!("F {offset} {discriminant} {explicit} {option} {name}Default{explicit}Option{option}\n");
        short += &format!("{typ}V {kind} 0\n");
        short.extend(words.iter().map(|word| format!("W {word}\n")));
    }
    short + &pointer_nodes(sheet)
}
