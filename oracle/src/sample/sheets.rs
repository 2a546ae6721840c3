//! Admission: sheets, each after a line with its length in decimal. An answer is a line with the refusal's number, its
//! line and its column, `0 0 0` for an admitted sheet.

use super::{Sample, BYTES};
use crate::generate::bounds::{self, Bound};
use crate::generate::{self, damage, faults};
use crate::random::Random;
use crate::sheet::read::{read, Refusal};
use std::collections::BTreeMap;

/// What the sheets at bounds may take of the input, beside those with faults on a line.
const BOUNDS: usize = 32_000;
/// Longer sheets would leave room for too few.
const LONGEST: usize = 600;
/// Bounds that are there whatever their length.
const TOLD: [&str; 5] = [
    "lists to level 16",
    "lists to level 17",
    "lists to level 17, torn",
    "bindings to level 17",
    "U in place of level 17",
];

pub fn sample() -> Sample {
    let mut sample = Sample::default();
    let random = &mut Random::new(22);
    let bounds = bounds::all();
    let told = |bound: &&Bound| TOLD.contains(&bound.name.as_str()) || bound.name.contains("an id on a");
    bounds.iter().filter(told).for_each(|bound| add(&mut sample, &bound.bytes));
    // Bounds stand in order of what they are about: evenly spaced ones keep something of everything.
    let short: Vec<&Bound> = bounds.iter().filter(|bound| bound.bytes.len() <= LONGEST && !told(bound)).collect();
    let all: usize = short.iter().map(|bound| bound.bytes.len() + 4).sum();
    let count = short.len() * (BOUNDS - sample.stdin.len()) / all;
    (0..count).for_each(|at| add(&mut sample, &short[at * short.len() / count].bytes));
    faulty(random).iter().for_each(|bytes| add(&mut sample, bytes));
    for turn in 0..400 {
        let (_, whole) = generate::sheet(random, turn);
        let damaged = damage::damaged(random, &whole);
        for bytes in [whole, damaged].iter().filter(|bytes| bytes.len() <= LONGEST) {
            if sample.stdin.len() + bytes.len() + 8 < BYTES {
                add(&mut sample, bytes);
            }
        }
    }
    sample
}

/// For each letter, and each number and column by which a line that begins with it is told, one of the sheets with faults.
fn faulty(random: &mut Random) -> Vec<Vec<u8>> {
    let mut told: BTreeMap<(Option<u8>, u64, u64), Vec<Vec<u8>>> = BTreeMap::new();
    faults::each(|bound| {
        let refusal = bound.expected.filter(|_| bound.bytes.len() <= LONGEST);
        if let Some(Refusal { number, line, column }) = refusal {
            let row = bound.bytes.split(|&byte| byte == b'\n').nth(line as usize - 1);
            let letter = row.and_then(|row| row.first().copied());
            told.entry((letter, number, column)).or_default().push(bound.bytes.clone());
        }
    });
    told.values().map(|sheets| random.pick(sheets).clone()).collect()
}

fn add(sample: &mut Sample, bytes: &[u8]) {
    let Refusal { number, line, column } = read(bytes).err().unwrap_or(Refusal::nowhere(0));
    sample.sheet(bytes, format!("{number} {line} {column}\n").as_bytes());
}
