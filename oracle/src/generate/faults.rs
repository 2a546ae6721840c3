//! Sheets with faults on one line, by document 01 and request N5: every number and every text of every letter, each way in which
//! it can be bad, alone and two on one line; numbers moved by a column; lines cut at every length; and all of these where a line
//! with that letter may not stand. Each sheet has the answer that follows from where its faults were put: the leftmost counts.

mod spots;

use super::bounds::Bound;
use super::damage::NO_LETTERS;
use crate::random::Random;
use crate::sheet::read::Refusal;
use crate::sheet::{value_width, MAX_BYTES};
use spots::Spot;

/// A line in parts, of which each can be bad: its letter, its numbers in their columns, and what stands behind them.
type Parts = Vec<Vec<u8>>;

/// What is put in place of a part of a line, and by which number and at which column that is told.
struct Fault {
    part: usize,
    bytes: Vec<u8>,
    number: u64,
    column: u64,
}

/// Hands over every sheet with its answer.
pub fn each(mut take: impl FnMut(&Bound)) {
    for spot in spots::all() {
        let mut made = Made { before: spot.before.bytes(), spot: &spot, take: &mut take };
        made.whole();
        made.single();
        made.moved();
        made.cut();
        if spot.paired {
            made.pairs();
        }
    }
}

/// A valid sheet with one to three faults on one of its lines.
pub fn random(random: &mut Random, sheet: &[u8]) -> Bound {
    let mut lines: Vec<&[u8]> = sheet.split_inclusive(|&byte| byte == b'\n').collect();
    let at = random.between(0, lines.len() - 1);
    let line = &lines[at][..lines[at].len() - 1];
    let (mut parts, faults) = (parts(line), faults(line));
    let mut leftmost: Option<&Fault> = None;
    for _ in 0..random.between(1, 3) {
        let fault = random.pick(&faults);
        parts[fault.part].clone_from(&fault.bytes);
        // A part that is put twice is as it was put last.
        if leftmost.is_none_or(|left| fault.part <= left.part) {
            leftmost = Some(fault);
        }
    }
    let bad = [&parts.concat()[..], b"\n"].concat();
    lines[at] = &bad;
    let bytes = lines.concat();
    let told = leftmost.map(|fault| fault.told(at as u64 + 1));
    let expected = if bytes.len() > MAX_BYTES { Some(Refusal::nowhere(1)) } else { told };
    Bound { name: "faults on a line of a valid sheet".to_string(), bytes, expected }
}

/// Makes the sheets of one spot.
struct Made<'a, T: FnMut(&Bound)> {
    before: Vec<u8>,
    spot: &'a Spot,
    take: &'a mut T,
}

impl<T: FnMut(&Bound)> Made<'_, T> {
    /// Hands over the sheet that ends with this line, which may be without its byte 10.
    fn sheet(&mut self, line: &[u8], own: Option<Refusal>) {
        let expected = if self.spot.may_stand { own } else { Some(Refusal::misplaced(self.spot.line())) };
        let bytes = [&self.before, line].concat();
        (self.take)(&Bound { name: self.spot.name.clone(), bytes, expected });
    }

    /// The same with its byte 10, and what the line is told by.
    fn line(&mut self, row: &[u8], number: u64, column: u64) {
        let line = self.spot.line();
        self.sheet(&[row, b"\n"].concat(), Some(Refusal { number, line, column }));
    }

    /// The line as it should be.
    fn whole(&mut self) {
        self.sheet(&[&self.spot.row, &b"\n"[..]].concat(), self.spot.whole);
    }

    /// One fault.
    fn single(&mut self) {
        let whole = parts(&self.spot.row);
        for fault in faults(&self.spot.row) {
            self.line(&fault.put(whole.clone()).concat(), fault.number, fault.column);
        }
    }

    /// Two faults in different parts of the line.
    fn pairs(&mut self) {
        let (whole, faults) = (parts(&self.spot.row), faults(&self.spot.row));
        for left in &faults {
            let one = left.put(whole.clone());
            for right in faults.iter().filter(|right| left.part < right.part) {
                self.line(&right.put(one.clone()).concat(), left.number, left.column);
            }
        }
    }

    /// Each number moved to the right by a column, over what stands behind it. Its last digit then stands in the columns of the
    /// next number, in the place of the space before the text, or behind the line's end; a number of one digit leaves a blank.
    fn moved(&mut self) {
        let row = self.spot.row.clone();
        let (numbers, _) = shape(row[0]);
        for place in 0..numbers {
            let (start, end) = (1 + 21 * place, 22 + 21 * place);
            let mut line = row.clone();
            line.insert(start, b' ');
            if end < row.len() {
                line.remove(end + 1);
            }
            let is_one_digit = row[end - 2] == b' ';
            match (is_one_digit, place + 1 == numbers) {
                (true, _) => self.line(&line, 16, start as u64 + 1),
                (false, true) => self.line(&line, 17, end as u64 + 1),
                (false, false) => self.line(&line, 16, end as u64 + 1),
            }
        }
    }

    /// The line cut at each length, with its byte 10 and without; a text that is cut is still one.
    fn cut(&mut self) {
        let row = self.spot.row.clone();
        let (numbers, has_text) = shape(row[0]);
        let text = 1 + 21 * numbers;
        self.line(&[], 2, 1);
        for length in 1..text {
            self.line(&row[..length], 16, 2 + (length as u64 - 1) / 21 * 21);
        }
        if has_text {
            self.line(&row[..text], 17, text as u64 + 1);
            self.line(&row[..text + 1], 17, text as u64 + 2);
        }
        for length in 1..=row.len() {
            self.sheet(&row[..length], Some(Refusal::misplaced(self.spot.line())));
        }
    }
}

impl Fault {
    fn put(&self, mut parts: Parts) -> Parts {
        parts[self.part].clone_from(&self.bytes);
        parts
    }

    fn told(&self, line: u64) -> Refusal {
        Refusal { number: self.number, line, column: self.column }
    }
}

/// How many numbers a line with this letter has, and whether it has a text.
fn shape(letter: u8) -> (usize, bool) {
    match letter {
        b'R' | b'P' => (0, true),
        b'N' => (7, true),
        b'F' => (4, true),
        b'G' => (2, true),
        b'T' => (4, false),
        b'S' => (3, false),
        b'U' => (0, false),
        b'V' => (2, false),
        _ => (1, false),
    }
}

/// The parts of a good line.
fn parts(row: &[u8]) -> Parts {
    let (numbers, _) = shape(row[0]);
    let (front, behind) = row.split_at(1 + 21 * numbers);
    let mut parts = vec![front[..1].to_vec()];
    parts.extend(front[1..].chunks(21).map(<[u8]>::to_vec));
    parts.push(behind.to_vec());
    parts
}

/// Every fault in one part of a good line.
fn faults(row: &[u8]) -> Vec<Fault> {
    let letter = row[0];
    let (numbers, has_text) = shape(letter);
    let parts = parts(row);
    let mut faults: Vec<Fault> =
        no_letters(letter).into_iter().map(|bytes| Fault { part: 0, bytes, number: 2, column: 1 }).collect();
    let values: Vec<u64> = parts[1..=numbers].iter().map(|column| value(column)).collect();
    for (place, &number) in values.iter().enumerate() {
        let (part, column) = (place + 1, 2 + 21 * place as u64);
        let least = u64::from(place == 0 && matches!(letter, b'N' | b'G'));
        for text in no_numbers(number, least, most(letter, &values[..place])) {
            faults.push(Fault { part, bytes: format!("{text:>21}").into_bytes(), number: 16, column });
        }
    }
    let (part, column) = (numbers + 1, 2 + 21 * numbers as u64);
    if has_text {
        let text = &parts[part][1..];
        faults.extend(no_spaces(text).into_iter().map(|bytes| Fault { part, bytes, number: 17, column }));
        let texts = no_texts(letter, text).into_iter().map(|text| [b" ", &text[..]].concat());
        faults.extend(texts.map(|bytes| Fault { part, bytes, number: 17, column: column + 1 }));
    } else {
        let surplus = [" ", "\r", "x", "0", "\0", "  x", "                    1"];
        faults.extend(surplus.map(|bytes| Fault { part, bytes: bytes.into(), number: 17, column }));
    }
    faults
}

/// The number in good columns.
fn value(column: &[u8]) -> u64 {
    let digits = str::from_utf8(column).expect("columns are ASCII").trim_start();
    digits.parse().expect("the line has a number there")
}

/// What may stand nowhere in place of a letter; R stands on the first line alone.
fn no_letters(letter: u8) -> Vec<Vec<u8>> {
    let other = if letter == b'R' { b'X' } else { b'R' };
    vec![vec![letter.to_ascii_lowercase()], vec![b' ', letter], vec![b'\r'], vec![other]]
}

/// The largest number that may stand in a line with this letter, behind those to its left.
fn most(letter: u8, left: &[u64]) -> u64 {
    let place = left.len();
    match letter {
        b'N' => [u64::MAX, u64::MAX, u64::MAX, 1, 1, 0xffff, 0xffff_ffff][place],
        b'F' => [0xffff_ffff, 0xffff, 1, 1][place],
        b'G' => [u64::MAX, 0xffff][place],
        b'T' => match left {
            [] => 18,
            [18] => 1,
            [18, 1] => u64::MAX,
            [18, 1, _] => 0xffff,
            [15..=17] | [15..=17, _] => u64::MAX,
            _ => 0,
        },
        b'S' => match left {
            [_] => 1,
            [_, 0] => 0,
            _ => u64::MAX,
        },
        b'V' => match left {
            [] => 18,
            [kind, ..] => ((1u128 << value_width(*kind as u8)) - 1) as u64,
        },
        _ => u64::MAX,
    }
}

/// What may not stand in place of a number, of at most 21 bytes.
fn no_numbers(number: u64, least: u64, most: u64) -> Vec<String> {
    let written = ["", "00", "01", "/", ":", "x", "1 1", "1\t", "\u{0}1", "0x1", "1_0", "1."];
    let large = ["18446744073709551616", "99999999999999999999", "999999999999999999999"];
    let mut bad: Vec<String> = written.into_iter().chain(large).map(String::from).collect();
    // With a sign, with a leading zero, with a letter or a return, and moved to the left by a column.
    bad.extend(["+", "-", "0", "l"].map(|front| format!("{front}{number}")));
    bad.extend(["a", "\r", " "].map(|behind| format!("{number}{behind}")));
    bad.extend(most.checked_add(1).map(|past| past.to_string()));
    bad.extend((most > 0).then(|| format!("{most}0")));
    bad.extend((least > 0).then(|| "0".to_string()));
    bad
}

/// What may not stand behind the numbers of a line with this text, told at the column of the space.
fn no_spaces(text: &[u8]) -> Vec<Vec<u8>> {
    let mut bad = vec![Vec::new(), text.to_vec()];
    bad.extend([&b"\t"[..], b"_", b"0", b"\xc2\xa0"].map(|front| [front, text].concat()));
    bad
}

/// What may not stand behind the space in place of this text.
fn no_texts(letter: u8, text: &[u8]) -> Vec<Vec<u8>> {
    let longest = if letter == b'N' { 128 } else { 64 };
    let mut bad = vec![Vec::new(), b"m".repeat(longest + 1), [b" ", text].concat()];
    bad.extend([&b" "[..], b"\r", b"\t", b"\0", b"\x7f", b" 1", b"\xff"].map(|behind| [text, behind].concat()));
    if matches!(letter, b'P' | b'F' | b'G') {
        bad.extend([&b"9"[..], b"-", b":", b"!"].map(|front| [front, text].concat()));
    }
    match letter {
        b'F' | b'G' => bad.extend(NO_LETTERS.iter().map(|bytes| [b"a", *bytes].concat())),
        _ => bad.push([text, "Ä".as_bytes()].concat()),
    }
    bad
}
