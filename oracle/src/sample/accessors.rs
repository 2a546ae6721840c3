//! Whole sheets, each after a line with its length in decimal; the answers are what `accessors` prints for each.

use super::{Sample, BYTES};
use crate::generate::{self, corners, damage};
use crate::program::accessors;
use crate::random::Random;
use crate::sheet::print::print;

/// Longer sheets would leave room for too few.
const LONGEST: usize = 2_500;

pub fn sample() -> Sample {
    let mut sample = Sample::default();
    let random = &mut Random::new(61);
    let corners = corners::all().into_iter().map(|corner| print(&corner.sheet)).filter(|bytes| bytes.len() <= LONGEST);
    // Every other corner, so that random sheets have their share.
    let corners: Vec<Vec<u8>> = corners.step_by(2).collect();
    let drawn = (0..200).map(|turn| {
        let (_, whole) = generate::sheet(random, turn);
        if turn % 10 == 9 {
            damage::damaged(random, &whole)
        } else {
            whole
        }
    });
    for bytes in corners.into_iter().chain(drawn).filter(|bytes| bytes.len() <= LONGEST) {
        if sample.stdin.len() + bytes.len() + 8 < BYTES {
            sample.sheet(&bytes, &accessors(&bytes));
        }
    }
    sample
}
