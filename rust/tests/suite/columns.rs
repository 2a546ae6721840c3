//! Where a line is bad: every column of every letter, and what the refusal says is expected there.

use crate::common::{file, sheet, told, Told};
use kitlubas::{admit, Refusal, Sheet};
use std::fs;

/// A sheet in which each letter stands, and the line where it does first.
const WHOLE: &str = "\
R ::capnp
N 7 0 0 1 1 3 2 bed
P Plan
F 0 65535 1 0 wardName
T 12 0 0 0
V 12 0
W 5
F 1 2 0 1 plans
T 16 7 1 0
S 7 1 1
U
V 16 0
G 9 65535 stay
";

/// The letters with the lines where they stand, from 1.
const LINES: [(u8, usize); 10] =
    [(b'R', 1), (b'N', 2), (b'P', 3), (b'F', 4), (b'T', 5), (b'V', 6), (b'W', 7), (b'S', 10), (b'U', 11), (b'G', 13)];

/// The numbers of each letter: the column where each begins, and what is expected there.
const NUMBERS: [(u8, usize, &str); 23] = [
    (b'N', 2, "the node's id, a number of 64 bits that is not 0"),
    (b'N', 23, "the parent's id, a number of 64 bits, 0 for none"),
    (b'N', 44, "the scope id, a number of 64 bits"),
    (b'N', 65, "1 for a struct or 0 for another node"),
    (b'N', 86, "1 for a generic node or 0 for another"),
    (b'N', 107, "the tag count, a number of 16 bits"),
    (b'N', 128, "the tag offset, a number of 32 bits"),
    (b'F', 2, "the offset, a number of 32 bits"),
    (b'F', 23, "the discriminant value, a number of 16 bits, 65535 for none"),
    (b'F', 44, "1 for an explicit default or 0"),
    (b'F', 65, "1 for an option or 0"),
    (b'G', 2, "the group's id, a number of 64 bits that is not 0"),
    (b'G', 23, "the discriminant value, a number of 16 bits, 65535 for none"),
    (b'T', 2, "the type's kind, a number from 0 to 18"),
    (b'T', 23, "a, which is a node's id for the kinds 15 to 17, 0 or 1 for kind 18, and 0 for others"),
    (b'T', 44, "b, which is the number of S lines for the kinds 15 to 17, a parameter's scope id, and 0 for others"),
    (b'T', 65, "c, which is a parameter's index, a number of 16 bits, and 0 for others"),
    (b'S', 2, "the scope id, a number of 64 bits"),
    (b'S', 23, "0 to inherit or 1 to bind"),
    (b'S', 44, "the number of bindings, which is 0 for a scope that inherits"),
    (b'V', 2, "the default's kind, a number from 0 to 18"),
    (b'V', 23, "the default's bits, a number of at most the width of its kind, 0 where that has none"),
    (b'W', 2, "a word, a number of 64 bits"),
];

/// The texts: the column of the space before each, and what is expected there and one column further.
const TEXTS: [(u8, usize, &str, &str); 5] = [
    (b'R', 2, "one space before the root", "the root: 1 to 64 bytes from 33 to 126"),
    (b'N', 149, "one space before the module", "the module: 1 to 128 bytes from 33 to 126"),
    (
        b'P',
        2,
        "one space before the parameter's name",
        "the parameter's name: 1 to 64 ASCII letters, digits or underscores, not digit first",
    ),
    (b'F', 86, "one space before the field's name", FIELD_NAME),
    (b'G', 44, "one space before the field's name", FIELD_NAME),
];

const FIELD_NAME: &str =
    "the field's name: 1 to 64 bytes, ASCII letters, digits, underscores or letters from U+00C0 to U+00FF \
     in UTF-8 but not U+00D7 or U+00F7, not digit first";

/// The columns behind the last number of lines without a text.
const ENDS: [(u8, usize); 5] = [(b'T', 86), (b'S', 65), (b'U', 2), (b'V', 44), (b'W', 23)];

fn line_of(letter: u8) -> usize {
    LINES.iter().find(|row| row.0 == letter).expect("the letter stands in the sheet").1
}

/// The refusal of the whole sheet with the line of a letter changed.
fn changed(letter: u8, change: impl Fn(&mut Vec<u8>)) -> Refusal {
    let bytes = sheet(WHOLE);
    let mut rows: Vec<Vec<u8>> = bytes.split(|&byte| byte == b'\n').map(<[u8]>::to_vec).collect();
    let row = &mut rows[line_of(letter) - 1];
    assert_eq!(row[0], letter);
    change(row);
    let bytes = rows.join(&b'\n');
    let refusal = admit(&bytes).expect_err("the line is bad");
    assert_eq!(Sheet::admit(&bytes).err(), Some(refusal));
    refusal
}

/// Holds a refusal against the spot and the sentence that it must have.
fn held(refusal: Refusal, (number, line, column): (u64, usize, usize), expected: &str) {
    assert_eq!(told(refusal), (number, Some((line, column))));
    assert_eq!(refusal.to_string(), format!("line {line}, column {column}: {expected} (refusal {number})"));
}

#[test]
fn the_whole_sheet_is_one() {
    assert_eq!(admit(&sheet(WHOLE)), Ok(()));
}

/// Each number badly written, and the line cut in the middle of it, in front of it and down to its letter.
#[test]
fn every_number_of_every_letter() {
    for (letter, column, expected) in NUMBERS {
        let spot = (16, line_of(letter), column);
        let expected = format!("{expected}, right-justified in 21 columns");
        let start = column - 1;
        for text in ["", "+1", "-1", "01", "1 ", "1a", "1 1", "18446744073709551616", "999999999999999999999"] {
            let put = |row: &mut Vec<u8>| drop(row.splice(start..start + 21, format!("{text:>21}").into_bytes()));
            held(changed(letter, put), spot, &expected);
        }
        for length in [start, start + 1, start + 20] {
            held(changed(letter, |row| row.truncate(length)), spot, &expected);
        }
    }
}

#[test]
fn every_text_of_every_letter() {
    for (letter, column, space, text) in TEXTS {
        let line = line_of(letter);
        for behind in ["", "a", "\ta"] {
            let put = |row: &mut Vec<u8>| row.splice(column - 1.., behind.bytes()).for_each(drop);
            held(changed(letter, put), (17, line, column), space);
        }
        let long = format!(" {}", "n".repeat(129));
        for behind in [" ", "  a", " a ", " a b", " a\r", " a\u{7f}", &long] {
            let put = |row: &mut Vec<u8>| row.splice(column - 1.., behind.bytes()).for_each(drop);
            held(changed(letter, put), (17, line, column + 1), text);
        }
    }
}

#[test]
fn surplus_bytes_of_every_letter() {
    for (letter, column) in ENDS {
        for surplus in [" ", "\r", "x", "0"] {
            let refusal = changed(letter, |row| row.extend(surplus.bytes()));
            held(refusal, (17, line_of(letter), column), "nothing more on this line");
        }
    }
}

/// Another letter, a small one and none stand at column 1, whatever else is bad on the line.
#[test]
fn every_letter_itself() {
    let expected = "a line with a letter that may stand there, and a newline at its end";
    for (letter, line) in LINES {
        for front in ["", "X", " "] {
            let put = |row: &mut Vec<u8>| *row = [front.as_bytes(), b" 01"].concat();
            held(changed(letter, put), (2, line, 1), expected);
        }
        held(changed(letter, |row| row.make_ascii_lowercase()), (2, line, 1), expected);
    }
}

/// Of two faults on a line the left one is told, and before an id that was met and a level that is too deep.
#[test]
fn the_leftmost_fault() {
    let told_of = |short: &str| admit(&sheet(short)).map_err(told);
    let start = "R ::capnp\nN 7 0 0 1 0 0 0 bed\n";
    let at = |number, line, column| -> Result<(), Told> { Err((number, Some((line, column)))) };
    assert_eq!(told_of(&format!("{start}F 3 65536 2 0 9\n")), at(16, 3, 23));
    assert_eq!(told_of(&format!("{start}F 3 65535 1 2 9\n")), at(16, 3, 65));
    assert_eq!(told_of(&format!("{start}N 7 0 0 1 0 0 0 b d\n")), at(17, 3, 150));
    assert_eq!(told_of(&format!("{start}N 7 0 0 1 0 0 0 bed\n")), at(3, 3, 2));
    let deep = format!("{start}F 0 65535 0 0 plan\n{}", "T 14 0 0 0\n".repeat(16));
    assert_eq!(told_of(&format!("{deep}T 1 0 7 0\n")), at(16, 20, 44));
    assert_eq!(told_of(&format!("{deep}T 1 0 0 0\n")), at(4, 20, 1));
    // A line that may not stand there is told by its letter alone.
    assert_eq!(told_of(&format!("{start}G 9 65535 plan\nP 9\n")), at(2, 4, 1));
}

/// The examples with a bad number and with a bad name.
#[test]
fn the_examples() {
    let refusal = |name: &str| {
        let bytes = fs::read(file(&format!("examples/{name}.sheet"))).expect("an example sheet");
        admit(&bytes).expect_err("the example is refused")
    };
    let discriminant = "the discriminant value, a number of 16 bits, 65535 for none, right-justified in 21 columns";
    held(refusal("shifted"), (16, 6, 23), discriminant);
    held(refusal("bad_name"), (17, 6, 87), FIELD_NAME);
    held(refusal("torn_letter"), (17, 3, 87), FIELD_NAME);
}
