//! Requests: capnpc's functions over the tree of a sheet against the static library over its bytes.

use crate::answer::{put, written, Request, State, Written};
use crate::boundary::answer as kitlubas;
use crate::codegen::GeneratorContext;
use crate::context::context;
use crate::generate::{self, corners, damage, faults, hostile};
use crate::random::Random;
use crate::report::{difference, kept, Report};
use crate::sheet::print::print;
use crate::sheet::read::{read, Refusal};
use crate::sheet::Sheet;

/// The greatest level of indentation.
const MOST: usize = 8;

/// How many fields of a node are asked in a hostile sheet, each of which is as long as a sheet can be.
const FEW: usize = 6;

/// Types' texts at every leaf, and at one that there is not.
pub fn types(times: u64) -> Report {
    let requests: Vec<Request> = (0..=10).map(|leaf| Request::Type { leaf }).collect();
    compare("types' texts", 41, 700 * times, &requests)
}

/// Getters, setters of both profiles, hasers and zeroing.
pub fn accessors(times: u64) -> Report {
    compare("getters, setters, paired setters, hasers, zeroing", 42, 2_200 * times, &Request::PARTS)
}

/// Every request on every field of the corners and of `count` random sheets, and on some of the hostile ones.
fn compare(name: &'static str, seed: u64, count: u64, requests: &[Request]) -> Report {
    let mut report = Report::new(name);
    let random = &mut Random::new(seed);
    for corner in corners::all() {
        fields(&mut report, random, &corner.sheet, &print(&corner.sheet), requests, usize::MAX);
    }
    for corner in hostile::all() {
        fields(&mut report, random, &corner.sheet, &print(&corner.sheet), requests, FEW);
    }
    for turn in 0..count {
        let (sheet, bytes) = generate::sheet(random, turn);
        fields(&mut report, random, &sheet, &bytes, requests, usize::MAX);
        nowhere(&mut report, random, &sheet, &bytes, requests);
        for bytes in [damage::damaged(random, &bytes), faults::random(random, &bytes).bytes] {
            let (node, place, request) = (sheet.nodes[0].id, random.below(3), *random.pick(requests));
            one_request(&mut report, random, &Asked { bytes: &bytes, node, place, request });
        }
    }
    report
}

/// A request on a sheet's bytes.
struct Asked<'a> {
    bytes: &'a [u8],
    node: u64,
    place: u64,
    request: Request,
}

/// Every request on the fields of each node, on `most` of them where there are more.
fn fields(report: &mut Report, random: &mut Random, sheet: &Sheet, bytes: &[u8], requests: &[Request], most: usize) {
    let ctx = context(sheet);
    for node in &sheet.nodes {
        let count = node.fields.len();
        for place in (0..count).step_by(count.div_ceil(most).max(1)) {
            for &request in requests {
                let asked = Asked { bytes, node: node.id, place: place as u64, request };
                at_places(report, random, &asked, told(sheet, &ctx, &asked));
            }
        }
    }
}

/// Nodes and fields that are not there.
fn nowhere(report: &mut Report, random: &mut Random, sheet: &Sheet, bytes: &[u8], requests: &[Request]) {
    let node = random.pick(&sheet.nodes);
    let count = node.fields.len() as u64;
    for (node, place) in [(node.id, count), (node.id, u64::MAX), (0, 0), (random.number(), 0)] {
        let request = *random.pick(requests);
        one_request(report, random, &Asked { bytes, node, place, request });
    }
}

/// A request on bytes that may be no sheet.
fn one_request(report: &mut Report, random: &mut Random, asked: &Asked) {
    let expected = match read(asked.bytes) {
        Ok(sheet) => told(&sheet, &context(&sheet), asked),
        Err(refusal) => Err(refusal),
    };
    at_places(report, random, asked, expected);
}

fn told(sheet: &Sheet, ctx: &GeneratorContext, asked: &Asked) -> Result<Written, Refusal> {
    written(sheet, ctx, asked.node, asked.place, asked.request).map_err(Refusal::nowhere)
}

/// The answer at every level in a buffer of exactly its length; at one level in another buffer by chance; and above them.
fn at_places(report: &mut Report, random: &mut Random, asked: &Asked, expected: Result<Written, Refusal>) {
    let text = |level| expected.as_ref().map(|written| written.at(level)).map_err(|refusal| *refusal);
    for level in 0..=MOST {
        let expected = text(level);
        let length = expected.as_ref().map_or(8, String::len);
        one_case(report, asked, &expected, length, State { fill: 0, level });
    }
    let level = random.below(MOST as u64 + 1) as usize;
    let expected = text(level);
    let (size, fill) = by_chance(random, expected.as_ref().map_or(8, String::len));
    one_case(report, asked, &expected, size, State { fill, level });
    let level = MOST + 1 + random.pick(&[0, 1, 247, usize::MAX - MOST - 1]);
    one_case(report, asked, &expected, size, State { fill, level });
}

/// A buffer's length and a fill count beside a text of so many bytes.
fn by_chance(random: &mut Random, length: usize) -> (usize, usize) {
    match random.below(6) {
        0 => (length.saturating_sub(1), 0),
        1 => (length + 1, 0),
        2 => (length + 9, 5),
        3 => (length + 4, 5),
        4 => (length + 3, length + 3),
        _ => (length, length + 1 + random.number() as usize % 99),
    }
}

/// One call: answer, fill count and every byte of the buffer.
fn one_case(report: &mut Report, asked: &Asked, expected: &Result<String, Refusal>, size: usize, state: State) {
    let before: Vec<u8> = (0..size).map(|at| (at * 37 + 129) as u8).collect();
    let mut buffer = before.clone();
    let State { fill, level } = state;
    let answer = match (state.allowed(size), expected) {
        (Err(refusal), _) => Err(refusal),
        (Ok(()), Ok(text)) => put(text, fill, &mut buffer),
        (Ok(()), Err(refusal)) => Err(*refusal),
    };
    let expected_fill = answer.unwrap_or(fill);
    let (mut found_buffer, mut after) = (before, state);
    let found = kitlubas::answer(asked.bytes, asked.node, asked.place, asked.request, &mut after, &mut found_buffer);
    let same = found.err() == answer.err() && after.fill == expected_fill && found_buffer == buffer;
    report.case(same, || {
        format!(
            "{:?} of node {} place {} at level {level}, {size} bytes, fill {fill}: {found:?} {} and not {answer:?}, {}: {}",
            asked.request,
            asked.node,
            asked.place,
            after.fill,
            difference(&found_buffer, &buffer),
            kept(asked.bytes)
        )
    });
}
