//! Letters with accents: in the names of fields every one of them, at every place and in the longest names, and everything
//! that is no such letter; in other texts none.

use super::lines::{named_f, named_g, named_p};
use super::{Bounds, Lines};
use crate::generate::damage::NO_LETTERS;
use crate::names;
use crate::sheet::read::Refusal;

/// A sheet with a name on its third line.
type Named = fn(&[u8]) -> Lines;

pub fn add(bounds: &mut Bounds) {
    for (letter, sheet, column) in [("F", named_f as Named, 87), ("G", named_g, 45)] {
        let mut names = Names { letter, sheet, column, bounds };
        pairs(&mut names);
        lengths(&mut names);
        places(&mut names);
        no_letters(&mut names);
        torn(&mut names);
    }
    other_texts(bounds);
    order(bounds);
}

/// Sheets that differ in one name.
struct Names<'b> {
    letter: &'static str,
    sheet: Named,
    /// Where the name begins.
    column: u64,
    bounds: &'b mut Bounds,
}

impl Names<'_> {
    fn passes(&mut self, name: &[u8]) {
        self.bounds.passes(self.name(name), &(self.sheet)(name));
    }

    fn refused(&mut self, name: &[u8]) {
        self.bounds.refused(self.name(name), &(self.sheet)(name), Refusal::bad_text(3, self.column));
    }

    fn name(&self, name: &[u8]) -> String {
        format!("{} with accents `{}`", self.letter, name.escape_ascii())
    }
}

/// Byte C3 before every byte that may follow it in UTF-8, and before others; every sort of byte before a byte that may follow.
fn pairs(names: &mut Names) {
    for second in 0x80..=0xbf {
        match second {
            0x97 | 0xb7 => names.refused(&[0xc3, second]),
            _ => names.passes(&[0xc3, second]),
        }
    }
    for second in [0, 9, 13, b' ', b'0', b'A', b'_', 0x7f, 0xc0, 0xc2, 0xc3, 0xc4, 0xe3, 0xff] {
        names.refused(&[0xc3, second]);
    }
    for first in [0, b' ', b'0', b'A', 0x80, 0xa4, 0xbf, 0xc0, 0xc1, 0xc2, 0xc4, 0xc5, 0xcc, 0xdf, 0xe3, 0xf3, 0xff] {
        names.refused(&[first, 0xa4]);
    }
}

/// The bound is one of bytes.
fn lengths(names: &mut Names) {
    let ascii = |count: usize| "n".repeat(count);
    for (letters, others) in [(32, 0), (31, 2), (31, 1), (16, 32), (1, 62), (1, 61)] {
        names.passes((ascii(others) + &"é".repeat(letters)).as_bytes());
        names.passes(("É".repeat(letters) + &ascii(others)).as_bytes());
    }
    for (letters, others) in [(33, 0), (32, 1), (31, 3), (16, 33), (1, 63), (1, 64), (64, 0)] {
        names.refused((ascii(others) + &"é".repeat(letters)).as_bytes());
        names.refused(("É".repeat(letters) + &ascii(others)).as_bytes());
    }
    // The 64th byte is the first of a pair.
    names.refused(&[ascii(63).as_bytes(), b"\xc3"].concat());
}

/// Letters beside ASCII letters, underscores and a digit, and beside one another; a digit still can't come first, and
/// other characters of ASCII are still refused.
fn places(names: &mut Names) {
    // Single letters are among the pairs.
    for name in names::accents_at_bounds().iter().filter(|name| name.chars().count() > 1) {
        names.passes(name.as_bytes());
    }
    for name in ["9Ä", "0é", "Ä-", "-Ä", "Ä a", " Ä", "Ä ", "Ä\r", "Ä\u{7f}"] {
        names.refused(name.as_bytes());
    }
}

/// What is no letter, first, last and between others.
fn no_letters(names: &mut Names) {
    for bytes in NO_LETTERS {
        names.refused(&[bytes, &b"a"[..]].concat());
        names.refused(&[&b"a"[..], bytes].concat());
        names.refused(&[&b"\xc3\xa9"[..], bytes, b"B"].concat());
    }
    // Letters beyond U+00FF, and signs below U+00C0.
    for name in ["ā", "aŁ", "aẞ", "aΩ", "aЖ", "a\u{2019}", "a🛏", "aª", "aµ", "a\u{a0}", "\u{feff}a"] {
        names.refused(name.as_bytes());
    }
}

/// A name cut after each of its bytes, and with each of the others missing.
fn torn(names: &mut Names) {
    let whole = "éaÄßbÿ".as_bytes();
    for end in [3, 5, 7, 8, 10] {
        names.passes(&whole[..end]);
    }
    for end in [1, 4, 6, 9] {
        names.refused(&whole[..end]);
    }
    for at in [2, 7] {
        names.passes(&[&whole[..at], &whole[at + 1..]].concat());
    }
    for at in [0, 1, 3, 4, 5, 6, 8] {
        names.refused(&[&whole[..at], &whole[at + 1..]].concat());
    }
    // The sheet ends in the middle of a pair, or behind it, and in either case before byte 10.
    for end in [1, 2] {
        let line = (names.sheet)(&whole[..end]).0[2].clone();
        let bytes = [Lines::start().bytes(), line].concat();
        let name = format!("{} with accents, the sheet ends after {end} of its bytes", names.letter);
        names.bounds.bytes(name, bytes, Some(Refusal::misplaced(3)));
    }
}

/// Roots, modules and parameters keep to ASCII.
fn other_texts(bounds: &mut Bounds) {
    let started =
        |root: &str, module: &str| Lines::new().text('R', &[], root).text('N', &[7, 0, 0, 1, 0, 0, 0], module);
    for name in ["Ä", "é", "aÄ", "äa"] {
        bounds.refused(format!("R with accents `{name}`"), &started(name, "bed"), Refusal::bad_text(1, 3));
        bounds.refused(format!("N with accents `{name}`"), &started("::capnp", name), Refusal::bad_text(2, 150));
        bounds.refused(format!("P with accents `{name}`"), &named_p(name.as_bytes()), Refusal::bad_text(3, 3));
    }
}

/// A bad name comes before an id that stands on a second G, and the first bad line before every later one.
fn order(bounds: &mut Bounds) {
    let twice = |name: &[u8]| named_g("stützen".as_bytes()).text('G', &[9, 65535], name);
    bounds.refused("an id on a second G with accents", &twice("Ä".as_bytes()), Refusal::doubled(4));
    bounds.refused("an id on a second G with a torn letter", &twice(b"a\xc3"), Refusal::bad_text(4, 45));
    let then_torn = |name: &[u8]| named_f(name).text('G', &[9, 65535], b"\xc3");
    bounds.refused("two torn letters", &then_torn(b"a\xc3"), Refusal::bad_text(3, 87));
    bounds.refused("a torn letter after a name with accents", &then_torn("é".as_bytes()), Refusal::bad_text(6, 45));
}
