//! Work to be measured, by capnpc's functions or by the static library. The script bench/run has callgrind count the
//! instructions of `measured_round` alone, so that what comes before it falls out.

mod ends;
mod leaves;
mod requests;
mod sheets;

pub use requests::{asked, of_sheet};
pub use sheets::write_all;

use crate::boundary;
use crate::sheet::read::read;
use std::hint::black_box;
use std::time::{Duration, Instant};

/// One round of a case.
pub type Round = Box<dyn FnMut()>;

/// Who does the work.
#[derive(Clone, Copy, PartialEq)]
pub enum Side {
    /// capnpc's function alone, on a tree that was read before.
    Rust,
    /// The same from the sheet's bytes: read, context, function, buffer.
    RustFromBytes,
    Kitlubas,
}

impl Side {
    pub fn of(name: &str) -> Option<Side> {
        match name {
            "rust" => Some(Side::Rust),
            "rust-from-bytes" => Some(Side::RustFromBytes),
            "kitlubas" => Some(Side::Kitlubas),
            _ => None,
        }
    }
}

/// The cases of a table, each with what one round of it does; none where there is no such table or its side has no such work.
pub fn cases(table: &str, side: Side) -> Option<Vec<(String, Round)>> {
    match table {
        "names" => leaves::cases(side),
        "admission" => {
            sheets::admitted().into_iter().map(|(name, bytes)| Some((name, admission(bytes(), side)?))).collect()
        }
        "requests" => Some(requests::cases(side)),
        "ends-by-bytes" if side == Side::Kitlubas => Some(ends::cases(boundary::ends::by_bytes)),
        "ends-by-words" if side == Side::Kitlubas => Some(ends::cases(boundary::ends::by_words)),
        _ => None,
    }
}

/// The round that callgrind counts, and after which it writes what it has counted. It finds the function by its name.
#[no_mangle]
#[inline(never)]
pub fn measured_round(round: &mut Round) {
    round();
}

/// Does every request of a small sheet: in the first rounds of a process, functions are linked and memory is fetched, which is
/// not to be counted.
pub fn warm_up(side: Side) {
    requests::cases(side).into_iter().for_each(|(_, mut round)| round());
}

/// The nanoseconds of one round, from rounds that take a fifth of a second.
pub fn nanoseconds(mut round: Round) -> f64 {
    let mut count = 0u32;
    let start = Instant::now();
    while start.elapsed() < Duration::from_millis(200) {
        (0..20).for_each(|_| round());
        count += 20;
    }
    start.elapsed().as_nanos() as f64 / f64::from(count)
}

/// Makes the compiler believe that a result is used.
fn discard<T>(result: T) {
    black_box(result);
}

/// capnpc reads no sheets: the reader of this package stands beside Kitlubas for orientation only.
fn admission(bytes: Vec<u8>, side: Side) -> Option<Round> {
    match side {
        Side::Rust => None,
        Side::RustFromBytes => Some(Box::new(move || discard(read(black_box(&bytes))))),
        Side::Kitlubas => Some(Box::new(move || discard(boundary::admit::admit(black_box(&bytes))))),
    }
}
