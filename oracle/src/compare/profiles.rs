//! Setters of both profiles, and the verdicts of slots: capnpc's texts over the tree of a sheet against the static library over
//! its bytes.

use crate::answer::{text_of_field, Request, State};
use crate::boundary::answer::answer as kitlubas;
use crate::boundary::fields::{number, Indexed, FIELD_SIZE};
use crate::context::context;
use crate::generate::{self, corners, damage, full, hostile};
use crate::paired::Apart;
use crate::program::BUFFER;
use crate::random::Random;
use crate::report::{kept, shown, Census, Report};
use crate::sheet::print::print;
use crate::sheet::read::{read, Refusal};
use crate::sheet::Sheet;
use crate::verdict::{verdict, Verdict};

/// A slot's two setters, by request.
const SETTERS: [Request; 2] = [Request::Setter, Request::PairedSetter];

/// The two setters of a field are one text or one refusal, but for the three sorts of defaults, with each of which they differ.
pub fn setters(times: u64) -> Report {
    let mut report = Report::new("setters of both profiles");
    let mut census = Census::of(&Apart::ALL);
    each_sheet(43, 4_000 * times, |sheet, bytes| setters_of(&mut report, &mut census, sheet, bytes));
    census.told(&mut report);
    report
}

/// The verdicts of slots with bits, and that no other field has one.
pub fn verdicts(times: u64) -> Report {
    let mut report = Report::new("verdicts of slots");
    let mut census = Census::of(&Verdict::ALL);
    for corner in hostile::all().into_iter().chain(full::slots()) {
        verdicts_of(&mut report, &mut census, &corner.sheet, &print(&corner.sheet));
    }
    each_sheet(44, 8_000 * times, |sheet, bytes| verdicts_of(&mut report, &mut census, sheet, bytes));
    census.told(&mut report);
    report
}

/// Visits the corners, so many random sheets, and those of their damaged copies that are still admitted.
fn each_sheet(seed: u64, count: u64, mut visit: impl FnMut(&Sheet, &[u8])) {
    for corner in corners::all() {
        visit(&corner.sheet, &print(&corner.sheet));
    }
    let random = &mut Random::new(seed);
    for turn in 0..count {
        let (sheet, bytes) = generate::sheet(random, turn);
        visit(&sheet, &bytes);
        let damaged = damage::damaged(random, &bytes);
        if let Ok(sheet) = read(&damaged) {
            visit(&sheet, &damaged);
        }
    }
}

/// The sides are compared with each other by `requests`; here the library must tell the two setters apart where the paragraph
/// does.
fn setters_of(report: &mut Report, census: &mut Census<Apart>, sheet: &Sheet, bytes: &[u8]) {
    let ctx = context(sheet);
    for node in &sheet.nodes {
        for (field, place) in node.fields.iter().zip(0..) {
            let is_given = text_of_field(&ctx, node, field, Request::Setter).is_ok();
            let apart = Apart::of_field(field).filter(|_| is_given);
            apart.into_iter().for_each(|apart| census.count(apart));
            let found = SETTERS.map(|request| answered(bytes, node.id, place, request));
            report.case((found[0] != found[1]) == apart.is_some(), || {
                format!("node {} place {place}, {apart:?}: {found:?}: {}", node.id, kept(bytes))
            });
        }
    }
}

/// The library's text, shown, or its refusal.
fn answered(bytes: &[u8], node: u64, place: u64, request: Request) -> Result<String, Refusal> {
    let mut buffer = vec![0; BUFFER];
    let mut state = State::flat(0);
    kitlubas(bytes, node, place, request, &mut state, &mut buffer)?;
    Ok(shown(&buffer[..state.fill]))
}

/// The verdict of each field; 15 of a node that is not there, and of too few numbers for a field.
fn verdicts_of(report: &mut Report, census: &mut Census<Verdict>, sheet: &Sheet, bytes: &[u8]) {
    let ctx = context(sheet);
    let indexed = Indexed::of(bytes).unwrap_or_else(|refusal| panic!("refused by {refusal:?}: {}", kept(bytes)));
    for (node, at) in sheet.nodes.iter().zip(0..) {
        let fields = indexed.fields(at);
        assert_eq!(fields.len(), node.fields.len(), "fields of node {}: {}", node.id, kept(bytes));
        for (field, numbers) in node.fields.iter().zip(&fields) {
            let what = || format!("{} of node {}: {}", field.name(), node.id, kept(bytes));
            let expected = verdict(&ctx, node, field);
            expected.into_iter().for_each(|verdict| census.count(verdict));
            one_verdict(report, indexed.verdict(at, numbers), expected, what);
            one_verdict(report, indexed.verdict(sheet.nodes.len(), numbers), None, what);
            one_verdict(report, indexed.verdict(usize::MAX, numbers), None, what);
            one_verdict(report, indexed.verdict(at, &numbers[..FIELD_SIZE - 1]), None, what);
        }
    }
}

/// An answer, with the number that the verdict became.
fn one_verdict(report: &mut Report, found: (u64, u64), verdict: Option<Verdict>, what: impl Fn() -> String) {
    let expected = verdict.map_or((15, 0), |verdict| (0, number(verdict)));
    report.case(found == expected, || format!("{found:?} and not {expected:?}: {}", what()));
}
