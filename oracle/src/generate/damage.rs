//! Damaged copies of sheets.

use crate::names;
use crate::random::Random;
use crate::sheet::MAX_BYTES;

/// Bytes that mean something in a sheet.
const TELLING: &[u8] = b" 0123456789\nRNPFGTSUVWaz_AZ-+\t\r\x00\x80\xc3\xff";

/// What a letter with an accent is not: half of one, both halves the wrong way round, a half too many, the two signs among the
/// letters, the letters' neighbours in Unicode, the letter in Latin-1, in too many bytes or with a combining mark.
pub const NO_LETTERS: &[&[u8]] = &[
    b"\xc3",
    b"\x84",
    b"\x84\xc3",
    b"\xc3\xc3\x84",
    b"\xc3\x84\x84",
    b"\xc3\x97",
    b"\xc3\xb7",
    b"\xc2\xbf",
    b"\xc4\x80",
    b"\xc4",
    b"\xe4",
    b"\xc1\x81",
    b"\xe0\x83\x84",
    b"\xf0\x80\x83\x84",
    b"A\xcc\x88",
    b"\xc3\x84\xcc\x80",
];

/// Numbers at the limits of some column, written as they stand.
const LIMITS: &[&str] = &[
    "0",
    "1",
    "2",
    "15",
    "17",
    "18",
    "19",
    "64",
    "255",
    "256",
    "65535",
    "65536",
    "4294967295",
    "4294967296",
    "18446744073709551615",
    "18446744073709551616",
    "99999999999999999999",
    "00",
    "01",
    "-1",
];

/// The sheet after one to three damages.
pub fn damaged(random: &mut Random, sheet: &[u8]) -> Vec<u8> {
    let mut bytes = sheet.to_vec();
    for _ in 0..random.between(1, 3) {
        damage(random, &mut bytes);
    }
    bytes
}

fn damage(random: &mut Random, bytes: &mut Vec<u8>) {
    if bytes.is_empty() {
        return bytes.push(*random.pick(TELLING));
    }
    let at = random.between(0, bytes.len() - 1);
    match random.below(14) {
        0 => bytes[at] ^= 1 << random.below(8),
        1 => bytes[at] = *random.pick(TELLING),
        2 => bytes.insert(at, *random.pick(TELLING)),
        3 => drop(bytes.remove(at)),
        4 => bytes.truncate(at),
        5..=8 => damage_lines(random, bytes),
        9 | 10 => set_number(random, bytes),
        11 | 12 => damage_letter(random, bytes),
        _ => resize(random, bytes),
    }
}

/// Deletes, doubles, swaps or moves whole lines.
fn damage_lines(random: &mut Random, bytes: &mut Vec<u8>) {
    let mut lines: Vec<Vec<u8>> = bytes.split_inclusive(|&byte| byte == b'\n').map(<[u8]>::to_vec).collect();
    let (one, other) = (random.between(0, lines.len() - 1), random.between(0, lines.len() - 1));
    match random.below(4) {
        0 => drop(lines.remove(one)),
        1 => lines.insert(one, lines[one].clone()),
        2 => lines.swap(one, other),
        _ => lines.insert(one, lines[other].clone()),
    }
    *bytes = lines.concat();
}

/// Puts a limit, right-justified, into one column of one line.
fn set_number(random: &mut Random, bytes: &mut [u8]) {
    let starts: Vec<usize> = (0..bytes.len()).filter(|&at| at == 0 || bytes[at - 1] == b'\n').collect();
    let column = *random.pick(&starts) + 1 + 21 * random.between(0, 6);
    let line_end = bytes[column.min(bytes.len())..].iter().position(|&byte| byte == b'\n');
    if line_end.is_some_and(|end| end >= 21) {
        bytes[column..column + 21].copy_from_slice(format!("{:>21}", random.pick(LIMITS)).as_bytes());
    }
}

/// Puts something else in place of a letter with an accent, or such a letter at the end of a line.
fn damage_letter(random: &mut Random, bytes: &mut Vec<u8>) {
    let places = |wanted: u8| (0..bytes.len()).filter(|&at| bytes[at] == wanted).collect::<Vec<usize>>();
    let (letters, ends) = (places(0xc3), places(b'\n'));
    if !letters.is_empty() && !random.once_in(4) {
        let at = *random.pick(&letters);
        bytes.splice(at..(at + 2).min(bytes.len()), random.pick(NO_LETTERS).iter().copied());
    } else if !ends.is_empty() {
        let (at, letter) = (*random.pick(&ends), *random.pick(&names::accented_letters()));
        bytes.splice(at..at, letter.to_string().into_bytes());
    }
}

/// Makes the sheet as long as a sheet can be, or one byte longer.
fn resize(random: &mut Random, bytes: &mut Vec<u8>) {
    if random.once_in(20) {
        let line = b"P padding\n";
        while bytes.len() < MAX_BYTES {
            bytes.extend_from_slice(line);
        }
        bytes.truncate(MAX_BYTES + random.between(0, 1));
    } else {
        bytes.extend(random.pick(&["\n", "N", "W\n", "U\n", "R ::capnp\n"]).bytes());
    }
}
