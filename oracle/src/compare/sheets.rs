//! Admission: the sheet reader of this package against the static library's.

use crate::boundary::admit::admit;
use crate::generate::bounds::{self, Bound};
use crate::generate::corners::{group, node, slot};
use crate::generate::{self, damage, faults};
use crate::random::Random;
use crate::report::{kept, Report};
use crate::sheet::print::print;
use crate::sheet::read::{read, Refusal};
use crate::sheet::{Sheet, Type};

/// Sheets at the bounds, fields with every name of two bytes, valid sheets, and four damaged copies of each.
pub fn admission(times: u64) -> Report {
    let mut report = Report::new("admission");
    for bound in bounds::all() {
        one_bound(&mut report, &bound);
    }
    let bed = node(7, 0, "bed", &[]);
    for named in [bed.clone().slots([slot("??", Type::Plain(1))]), bed.group(group("??", 9))] {
        two_bytes(&mut report, print(&Sheet::of(vec![named])));
    }
    let random = &mut Random::new(21);
    for turn in 0..4_000 * times {
        let (_, bytes) = generate::sheet(random, turn);
        one_sheet(&mut report, &bytes, "valid");
        for _ in 0..4 {
            one_sheet(&mut report, &damage::damaged(random, &bytes), "damaged");
        }
    }
    report
}

/// Sheets with faults on one line: every one that there is, and four on lines of each valid sheet.
pub fn faults(times: u64) -> Report {
    let mut report = Report::new("faults on a line");
    faults::each(|bound| one_bound(&mut report, bound));
    let random = &mut Random::new(23);
    for turn in 0..4_000 * times {
        let (_, bytes) = generate::sheet(random, turn);
        for _ in 0..4 {
            one_bound(&mut report, &faults::random(random, &bytes));
        }
    }
    report
}

/// A sheet with any two bytes in place of its name `??`.
fn two_bytes(report: &mut Report, mut bytes: Vec<u8>) {
    let at = bytes.windows(2).position(|pair| pair == b"??").expect("the sheet has this name");
    for pair in 0..=u16::MAX {
        bytes[at..at + 2].copy_from_slice(&pair.to_be_bytes());
        one_sheet(report, &bytes, "two bytes as a name");
    }
}

/// A sheet with its answer, which this package's own reader must give.
fn one_bound(report: &mut Report, bound: &Bound) {
    assert_eq!(read(&bound.bytes).err(), bound.expected, "{}: {}", bound.name, kept(&bound.bytes));
    one_sheet(report, &bound.bytes, &bound.name);
}

fn one_sheet(report: &mut Report, bytes: &[u8], name: &str) {
    let expected = read(bytes).map(|_| ());
    let found = admit(bytes);
    report.case(found == expected, || format!("{name}: {} and not {}: {}", said(found), said(expected), kept(bytes)));
}

fn said(answer: Result<(), Refusal>) -> String {
    match answer {
        Ok(()) => "admitted".to_string(),
        Err(Refusal { number, line, column }) => format!("{number} at line {line} column {column}"),
    }
}
