//! Lines: texts at their bounds, and each way in which a line can be badly laid out or torn.

use super::{Bounds, Lines};
use crate::sheet::read::Refusal;

pub fn add(bounds: &mut Bounds) {
    names(bounds);
    roots(bounds);
    modules(bounds);
    layout(bounds);
    torn(bounds);
}

/// A sheet with every letter. Line 19 is its last.
pub fn whole() -> Lines {
    Lines::start()
        .text('P', &[], "T")
        .text('F', &[3, 65535, 0, 0], "isFree")
        .typ([1, 0, 0, 0])
        .plain('V', &[1, 1])
        .text('F', &[0, 65535, 1, 0], "name")
        .typ([12, 0, 0, 0])
        .plain('V', &[12, 0])
        .plain('W', &[5])
        .text('F', &[1, 2, 0, 1], "wards")
        .typ([14, 0, 0, 0])
        .typ([16, 7, 1, 0])
        .plain('S', &[7, 1, 2])
        .plain('U', &[])
        .typ([18, 1, 7, 0])
        .plain('V', &[14, 0])
        .text('G', &[9, 65535], "place")
        .text('N', &[9, 7, 7, 1, 0, 2, 4], "bed::place")
}

/// The names of P, F and G lines.
fn names(bounds: &mut Bounds) {
    let good = ["a", "Z", "_", "x9", "__", "aZ09_"].map(String::from).to_vec();
    let bad = ["", "9", "0a", "a b", "a-b", " a", "a ", "a/", "a:", "a@", "a[", "a^", "a`", "a{", "\u{7f}"];
    for (letter, sheet) in [('P', named_p as fn(&[u8]) -> Lines), ('F', named_f), ('G', named_g)] {
        let refusal = Refusal::bad_text(3, text_column(letter).expect("the line has a name"));
        for name in good.iter().cloned().chain([1, 63, 64].map(|length| "n".repeat(length))) {
            bounds.passes(format!("{letter} name {name}"), &sheet(name.as_bytes()));
        }
        for name in bad {
            bounds.refused(format!("{letter} name `{name}`"), &sheet(name.as_bytes()), refusal);
        }
        for length in [65, 66, 128, 1000] {
            bounds.refused(format!("{letter} name of {length}"), &sheet(&b"n".repeat(length)), refusal);
        }
        for byte in [0, 9, 13, 128, 195, 255] {
            bounds.refused(format!("{letter} name with byte {byte}"), &sheet(&[b'a', byte]), refusal);
        }
    }
}

/// Sheets with this name on line 3.
pub fn named_p(name: &[u8]) -> Lines {
    Lines::start().text('P', &[], name)
}

pub fn named_f(name: &[u8]) -> Lines {
    Lines::start().text('F', &[3, 65535, 0, 0], name).typ([0, 0, 0, 0]).void_value()
}

pub fn named_g(name: &[u8]) -> Lines {
    Lines::start().text('G', &[9, 65535], name)
}

fn roots(bounds: &mut Bounds) {
    let rooted = |root: &str| Lines::new().text('R', &[], root).text('N', &[7, 0, 0, 1, 0, 0, 0], "bed");
    texts(bounds, "R root", &rooted, 64, Refusal::bad_text(1, 3));
}

fn modules(bounds: &mut Bounds) {
    let moduled = |module: &str| Lines::new().text('R', &[], "::capnp").text('N', &[7, 0, 0, 1, 0, 0, 0], module);
    texts(bounds, "N module", &moduled, 128, Refusal::bad_text(2, 150));
}

/// Texts of bytes 33 to 126, at most `longest`, and what others are refused by.
fn texts(bounds: &mut Bounds, name: &str, sheet: &dyn Fn(&str) -> Lines, longest: usize, refusal: Refusal) {
    for text in ["!", "~", "9", "{}", "::"] {
        bounds.passes(format!("{name} {text}"), &sheet(text));
    }
    bounds.passes(format!("{name} of {longest}"), &sheet(&"m".repeat(longest)));
    bounds.refused(format!("{name} of {}", longest + 1), &sheet(&"m".repeat(longest + 1)), refusal);
    for text in ["", " ", " a", "a ", "a b"] {
        bounds.refused(format!("{name} `{text}`"), &sheet(text), refusal);
    }
    for byte in [0, 9, 13, 32, 127, 128, 255] {
        let mut lines = sheet("ab");
        *lines.0[refusal.line as usize - 1].last_mut().expect("the line is not empty") = byte;
        bounds.refused(format!("{name} with byte {byte}"), &lines, refusal);
    }
}

/// Where the text of a line begins, if it has one.
fn text_column(letter: char) -> Option<u64> {
    match letter {
        'R' | 'P' => Some(3),
        'N' => Some(150),
        'F' => Some(87),
        'G' => Some(45),
        _ => None,
    }
}

/// Each line of the whole sheet with something added, missing or changed.
fn layout(bounds: &mut Bounds) {
    let whole = whole();
    bounds.passes("every letter", &whole);
    for (at, line) in whole.0.iter().enumerate() {
        let letter = line[0] as char;
        let number = at as u64 + 1;
        let mut tried = |what: &str, changed: Vec<u8>, refusal: Refusal| {
            let mut lines = whole.clone();
            lines.0[at] = changed;
            bounds.refused(format!("line {number}, {letter}, {what}"), &lines, refusal);
        };
        let misplaced = Refusal::misplaced(number);
        tried("empty", Vec::new(), misplaced);
        tried("a space in front", [&b" "[..], line].concat(), misplaced);
        tried("a small letter", [&line[..1].to_ascii_lowercase(), &line[1..]].concat(), misplaced);
        tried("an unknown letter", [&b"X"[..], &line[1..]].concat(), misplaced);
        let surplus = Refusal::bad_text(number, text_column(letter).unwrap_or(line.len() as u64 + 1));
        tried("a space at its end", [line, &b" "[..]].concat(), surplus);
        tried("a return at its end", [line, &b"\r"[..]].concat(), surplus);
        let only_letter = line[..1].to_vec();
        let space_more = [&line[..1], &b" "[..], &line[1..]].concat();
        let space_less = [&line[..1], line.get(2..).unwrap_or_default()].concat();
        match letter {
            'U' => {}
            'R' | 'P' => {
                tried("only its letter", only_letter, Refusal::bad_text(number, 2));
                tried("a space too many", space_more, Refusal::bad_text(number, 3));
                tried("a space too few", space_less, Refusal::bad_text(number, 2));
            }
            _ => {
                tried("only its letter", only_letter, Refusal::bad_number(number, 2));
                // The last digit moves into the columns of the next number: what is left is blank, or is a number.
                let column = if line[20] == b' ' { 2 } else { 23 };
                tried("a space too many", space_more, Refusal::bad_number(number, column));
                tried("a space too few", space_less, Refusal::bad_number(number, 2));
            }
        }
    }
}

/// The whole sheet cut after each line, and before each line's byte 10.
fn torn(bounds: &mut Bounds) {
    let whole = whole();
    // After these lines a sheet may end: a node, a parameter, a whole field.
    let ends = [2, 3, 6, 10, 17, 18, 19];
    for count in 0..=whole.0.len() {
        let cut = Lines(whole.0[..count].to_vec());
        let name = format!("cut after line {count}");
        if ends.contains(&count) {
            bounds.passes(name, &cut);
        } else {
            bounds.refused(name, &cut, Refusal::misplaced(count as u64 + 1));
        }
        if count > 0 {
            let mut bytes = cut.bytes();
            bytes.pop();
            let expected = Some(Refusal::misplaced(count as u64));
            bounds.bytes(format!("cut before the end of line {count}"), bytes, expected);
        }
    }
}
