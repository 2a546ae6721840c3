//! The example all_texts writes what the program `accessors` writes.

use crate::common::{file, sheet};
use std::fs;

#[path = "../../examples/all_texts.rs"]
#[allow(dead_code)]
mod all_texts;

fn written(bytes: &[u8]) -> String {
    let mut out = Vec::new();
    all_texts::all_texts(bytes, &mut out).expect("memory can be written");
    String::from_utf8(out).expect("texts are UTF-8")
}

#[test]
fn every_example_sheet() {
    let mut sheets = 0;
    for entry in fs::read_dir(file("examples")).expect("the examples can be listed") {
        let path = entry.expect("the examples can be listed").path();
        if path.extension().is_some_and(|extension| extension == "sheet") {
            let stored = fs::read_to_string(path.with_extension("out")).expect("an example has its output");
            assert_eq!(written(&fs::read(&path).expect("an example can be read")), stored, "{}", path.display());
            sheets += 1;
        }
    }
    assert!(sheets > 6);
}

#[test]
fn a_refused_sheet_is_one_line() {
    assert_eq!(written(&[0; 65_537]), "refused 1 line 0 column 0\n");
    assert_eq!(written(b"R ::capnp\n"), "refused 2 line 2 column 1\n");
    assert_eq!(written(b"R ::capnp\nN\n"), "refused 16 line 2 column 2\n");
    assert_eq!(written(b"R\n"), "refused 17 line 1 column 2\n");
}

/// A text of more than 65,536 bytes is refused by 22: a type with thousands of parameters that nothing is bound to.
#[test]
fn a_text_that_is_too_long_is_refused() {
    let parameters = "P Plan\n".repeat(3000);
    let bed = format!("R ::capnp\nN 7 0 0 1 1 0 0 bed\n{parameters}F 0 65535 0 0 plan\nT 16 7 0 0\nV 16 0\n");
    let text = written(&sheet(&bed));
    let lines: Vec<&str> = text.lines().take(7).collect();
    let refused = "refused 22";
    let headers = ["# getter reader plan", "# getter builder plan", "# setter plan", "# haser reader plan"];
    assert_eq!(lines, [headers[0], refused, headers[1], refused, headers[2], refused, headers[3]]);
}
