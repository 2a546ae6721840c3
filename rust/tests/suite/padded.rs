//! Sheets that are written by hand.

use crate::common::file;
use kitlubas::{admit, padded};
use std::fs;

/// The example sheets that are admitted.
fn sheets() -> Vec<Vec<u8>> {
    let names = ["is_free", "ward", "accents", "bed_status", "groups", "nodes", "large", "deep"];
    let read = |name: &str| fs::read(file(&format!("examples/{name}.sheet"))).expect("an example sheet");
    names.map(read).to_vec()
}

/// A text with each run of spaces as so many.
fn spaced(text: &[u8], spaces: usize) -> Vec<u8> {
    let words = text.split(|&byte| byte == b' ').filter(|word| !word.is_empty());
    words.collect::<Vec<_>>().join(&b" ".repeat(spaces)[..])
}

#[test]
fn a_short_form_is_its_sheet() {
    for sheet in sheets() {
        assert_eq!(admit(&sheet), Ok(()));
        for spaces in [1, 2, 9] {
            assert!(padded(spaced(&sheet, spaces)) == sheet);
        }
    }
    let short = fs::read(file("examples/short/ward.txt")).expect("an example");
    assert!(padded(short) == fs::read(file("examples/ward.sheet")).expect("an example sheet"));
}

#[test]
fn a_sheet_stays() {
    for sheet in sheets() {
        assert!(padded(&sheet) == sheet);
    }
}

/// What is no line has a text too, with as much room as it takes.
#[test]
fn rows_that_are_no_lines() {
    let columns = |count: usize| " ".repeat(21 * count);
    assert_eq!(padded(""), b"");
    assert_eq!(padded("\n\n"), b"\n\n");
    assert_eq!(padded("N"), format!("N{}", columns(7)).into_bytes());
    assert_eq!(padded("N\n".repeat(300)), format!("N{}\n", columns(7)).repeat(300).into_bytes());
    assert_eq!(padded("W x y"), format!("W{:>21} y", "x").into_bytes());
    assert_eq!(padded("V 1\nU"), format!("V{:>21}{}\nU", 1, columns(1)).into_bytes());
    assert_eq!(padded("Q  1"), b"Q 1");
    let long = "7".repeat(30);
    assert_eq!(padded(format!("W {long}\n")), format!("W{long}\n").into_bytes());
}
