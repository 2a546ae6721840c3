//! Counts the cases of one comparison, and prints the first that differ.

use std::hash::{DefaultHasher, Hash, Hasher};
use std::{env, fmt, fs};

/// How many differences are printed in full.
const SHOWN: u64 = 5;

pub struct Report {
    name: &'static str,
    cases: u64,
    differ: u64,
}

impl Report {
    pub fn new(name: &'static str) -> Report {
        Report { name, cases: 0, differ: 0 }
    }

    /// One case: `what` describes it if it differs.
    pub fn case(&mut self, same: bool, what: impl FnOnce() -> String) {
        self.cases += 1;
        if !same {
            self.differ += 1;
            if self.differ <= SHOWN {
                println!("{}: {}", self.name, what());
            }
        }
    }

    pub fn cases(&self) -> u64 {
        self.cases
    }

    pub fn differ(&self) -> u64 {
        self.differ
    }
}

/// How often each of some things occurred.
pub struct Census<T>(Vec<(T, u64)>);

impl<T: Copy + PartialEq + fmt::Debug> Census<T> {
    pub fn of(all: &[T]) -> Census<T> {
        Census(all.iter().map(|&thing| (thing, 0)).collect())
    }

    pub fn count(&mut self, thing: T) {
        for (other, times) in &mut self.0 {
            *times += u64::from(*other == thing);
        }
    }

    /// Prints how often each occurred, which is a case of its own: it differs where that is never.
    pub fn told(&self, report: &mut Report) {
        let counts: Vec<String> = self.0.iter().map(|(thing, times)| format!("{times} {thing:?}")).collect();
        println!("{}: of them {}", report.name, counts.join(", "));
        for (thing, times) in &self.0 {
            report.case(*times > 0, || format!("{thing:?} never occurred"));
        }
    }
}

impl fmt::Display for Report {
    fn fmt(&self, f: &mut fmt::Formatter) -> fmt::Result {
        write!(f, "{}: {} cases, {} differ", self.name, self.cases, self.differ)
    }
}

/// A byte string as it is shown in a difference.
pub fn shown(bytes: &[u8]) -> String {
    format!("`{}`", bytes.escape_ascii())
}

/// Where two buffers of one length differ, and how they go on there.
pub fn difference(found: &[u8], expected: &[u8]) -> String {
    let Some(at) = found.iter().zip(expected).position(|(one, other)| one != other) else {
        return "equal bytes".to_string();
    };
    let part = |bytes: &[u8]| shown(&bytes[at..bytes.len().min(at + 60)]);
    format!("from byte {at} {} and not {}", part(found), part(expected))
}

/// Writes a sheet that was answered differently beside this program, and gives the file's name.
pub fn kept(sheet: &[u8]) -> String {
    let mut hasher = DefaultHasher::new();
    sheet.hash(&mut hasher);
    let folder = env::current_exe().ok().and_then(|exe| Some(exe.parent()?.join("differ"))).unwrap_or_default();
    let file = folder.join(format!("{:016x}.sheet", hasher.finish()));
    match fs::create_dir_all(&folder).and_then(|()| fs::write(&file, sheet)) {
        Ok(()) => file.display().to_string(),
        Err(error) => format!("not kept: {error}"),
    }
}
