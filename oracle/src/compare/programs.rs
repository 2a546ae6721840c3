//! The programs `accessors` and `verdicts`, run on whole sheets: what they print against what capnpc's functions give.

use crate::generate::corners::Corner;
use crate::generate::{self, bounds, corners, damage, full, hostile};
use crate::program;
use crate::random::Random;
use crate::report::{kept, Report};
use crate::sheet::print::print;
use std::fs::{self, File};
use std::path::{Path, PathBuf};
use std::process::Command;
use std::{env, io, process};

/// Where the gate puts the programs, from the project's root.
const PROGRAMS: &str = "target/bin";

pub fn accessors(times: u64) -> Report {
    let corners = corners::all().into_iter().chain(full::all());
    Program::new("accessors", program::accessors).compare(corners, 51, 9_500 * times)
}

pub fn verdicts(times: u64) -> Report {
    let corners = corners::all().into_iter().chain(hostile::all()).chain(full::slots());
    Program::new("verdicts", program::verdicts).compare(corners, 52, 4_000 * times)
}

/// A program, and what it must print for the bytes that it is given.
struct Program {
    report: Report,
    path: PathBuf,
    expected: fn(&[u8]) -> Vec<u8>,
}

impl Program {
    fn new(name: &'static str, expected: fn(&[u8]) -> Vec<u8>) -> Program {
        Program { report: Report::new(name), path: Path::new(PROGRAMS).join(name), expected }
    }

    /// The corners, the bounds, and so many random sheets with a damaged copy of each.
    fn compare(mut self, corners: impl Iterator<Item = Corner>, seed: u64, count: u64) -> Report {
        for corner in corners {
            self.one_sheet(&print(&corner.sheet), &corner.name);
        }
        for bound in bounds::all() {
            self.one_sheet(&bound.bytes, &bound.name);
        }
        let random = &mut Random::new(seed);
        for turn in 0..count {
            let (_, bytes) = generate::sheet(random, turn);
            self.one_sheet(&bytes, "valid");
            self.one_sheet(&damage::damaged(random, &bytes), "damaged");
        }
        self.report
    }

    fn one_sheet(&mut self, bytes: &[u8], name: &str) {
        let found = self.run(bytes).unwrap_or_else(|error| panic!("{}: {error}", self.path.display()));
        let same = found == (self.expected)(bytes);
        self.report.case(same, || format!("{name}: {}", kept(bytes)));
    }

    /// What the program prints; its input is a file, so that neither side waits for the other.
    fn run(&self, sheet: &[u8]) -> io::Result<Vec<u8>> {
        let file = env::temp_dir().join(format!("oracle-{}.sheet", process::id()));
        fs::write(&file, sheet)?;
        let output = Command::new(&self.path).stdin(File::open(&file)?).output();
        fs::remove_file(&file)?;
        Ok(output?.stdout)
    }
}
