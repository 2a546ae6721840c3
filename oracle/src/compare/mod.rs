//! The comparisons with the static library and with the programs.

mod leaves;
mod placed;
mod profiles;
mod programs;
mod requests;
mod sheets;

use crate::report::Report;

/// Each comparison, with the random cases so many times.
const COMPARISONS: [fn(u64) -> Report; 11] = [
    leaves::names,
    leaves::numbers,
    leaves::lines,
    sheets::admission,
    sheets::faults,
    requests::types,
    requests::accessors,
    profiles::setters,
    profiles::verdicts,
    programs::accessors,
    programs::verdicts,
];

/// Runs every comparison and prints its report, and their sum: whether nothing differs.
pub fn all(times: u64) -> bool {
    let (mut cases, mut differ) = (0, 0);
    for compared in COMPARISONS {
        let report = compared(times);
        println!("{report}");
        cases += report.cases();
        differ += report.differ();
    }
    println!("comparison with capnpc: {cases} cases, {differ} differ");
    differ == 0
}
