//! The boundary is written down three times: in C's headers, in the declarations that Rust links by, and in the heads of
//! the exported functions. Here each is read, and all three must be one.

use crate::common::file;
use heads::{constants, of_c, of_rattle, of_rust, Heads};
use std::fs;
use std::path::Path;

pub mod heads;

fn read(path: &Path) -> String {
    fs::read_to_string(path).unwrap_or_else(|error| panic!("{}: {error}", path.display()))
}

/// The heads of the functions that a crate exports, from all its files.
fn exported(folder: &str) -> Heads {
    let mut heads = Heads::new();
    for entry in fs::read_dir(file(folder)).expect("the sources can be listed") {
        let path = entry.expect("the sources can be listed").path();
        if path.extension().is_some_and(|extension| extension == "rt") {
            heads.extend(of_rattle(&read(&path)));
        }
    }
    heads
}

/// Holds two of the three against each other, function by function.
fn same(left: &Heads, right: &Heads, which: &str) {
    let names = |heads: &Heads| heads.keys().cloned().collect::<Vec<String>>();
    assert_eq!(names(left), names(right), "{which} have other functions");
    for (name, head) in left {
        assert_eq!(head, &right[name], "{which} have other heads of {name}");
    }
}

/// The heads that a header declares, of which there are so many or more.
fn declared(path: &str, count: usize) -> Heads {
    let heads = of_c(&read(&file(path)));
    assert!(heads.len() >= count, "only {} functions were read in {path}", heads.len());
    heads
}

fn of_sheets() -> Heads {
    declared("crates/exports/kitlubas.h", 18)
}

fn of_records() -> Heads {
    declared("crates/record_exports/kitlubas_record.h", 11)
}

#[test]
fn header_and_declarations_of_sheets() {
    let declarations = read(&file("rust/src/boundary/declarations.rs"));
    same(&of_sheets(), &of_rust(&declarations), "header and declarations");
}

#[test]
fn header_and_exported_functions_of_sheets() {
    same(&of_sheets(), &exported("crates/exports_c/src"), "header and exported functions");
}

#[test]
fn header_and_declarations_of_records() {
    let declarations = read(&file("runtime/src/kitlubas.rs"));
    same(&of_records(), &of_rust(&declarations), "header and declarations");
}

#[test]
fn header_and_exported_functions_of_records() {
    same(&of_records(), &exported("crates/record_exports/src"), "header and exported functions");
}

/// One head in the three ways that it is written.
#[test]
fn heads_are_read() {
    let c =
        "/* f(); */ enum { A = 1, B = 2 };\n#ifdef X\nextern \"C\" {\n#endif\nuint64_t kitlubas_f(const uint8_t *s, \
        size_t s_len,\n    uint64_t *index, size_t index_len, size_t n, size_t *line, bool mask);\n}\n";
    let rust = "// kitlubas_g();\nextern \"C\" {\n    pub fn kitlubas_f(s: *const u8, s_len: usize, index: *mut u64, \
        index_len: usize, n: usize, line: *mut usize, mask: bool,) -> u64;\n}";
    let rattle = "// fn kitlubas_g()\n#[no_mangle]\npub extern \"C\" fn kitlubas_f(\n    s: &[u8],\n    index: &mut [u64],\n    \
        n: usize, line: &mut usize, mask: bool\n) -> u64\n    ensures { λ r. ⌜ r ≡ 0 ⌝ }\n{\n    0\n}\nfn f(s: &[u8]) -> u64 { 0 }";
    let head = of_c(c);
    assert_eq!(head.keys().collect::<Vec<_>>(), ["kitlubas_f"]);
    let parameters: Vec<(&str, &str)> =
        head["kitlubas_f"].parameters.iter().map(|(name, typ)| (name.as_str(), typ.as_str())).collect();
    let expected = [
        ("s", "*const u8"),
        ("s_len", "usize"),
        ("index", "*mut u64"),
        ("index_len", "usize"),
        ("n", "usize"),
        ("line", "*mut usize"),
        ("mask", "bool"),
    ];
    assert_eq!(parameters, expected);
    assert_eq!(head["kitlubas_f"].result, "u64");
    assert_eq!((of_rust(rust), of_rattle(rattle)), (head.clone(), head));
    assert_eq!(constants(c), [("A".to_string(), 1), ("B".to_string(), 2)].into());
}

/// A changed name, type, order, constness or result is seen.
#[test]
fn a_changed_head_is_another() {
    let head = |text: &str| of_c(&format!("{text};"));
    let whole = head("uint64_t kitlubas_f(const uint8_t *s, size_t s_len)");
    for changed in [
        "uint64_t kitlubas_g(const uint8_t *s, size_t s_len)",
        "uint32_t kitlubas_f(const uint8_t *s, size_t s_len)",
        "uint64_t kitlubas_f(uint8_t *s, size_t s_len)",
        "uint64_t kitlubas_f(const uint64_t *s, size_t s_len)",
        "uint64_t kitlubas_f(const uint8_t *t, size_t s_len)",
        "uint64_t kitlubas_f(size_t s_len, const uint8_t *s)",
        "uint64_t kitlubas_f(const uint8_t *s)",
    ] {
        assert_ne!(head(changed), whole, "{changed}");
    }
}
