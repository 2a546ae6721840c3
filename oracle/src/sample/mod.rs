//! The samples that the gate replays without any Rust: the input of a program, and what it must print.

pub mod accessors;
pub mod leaves;
pub mod requests;
pub mod sheets;

use std::path::Path;
use std::{fs, io};

/// The input of a sample of sheets stays below this.
const BYTES: usize = 65_536;

/// What a program reads and what it must write.
#[derive(Default)]
pub struct Sample {
    pub stdin: Vec<u8>,
    pub stdout: Vec<u8>,
}

impl Sample {
    /// Adds a sheet after a line with its length in decimal, and what must be said of it.
    fn sheet(&mut self, bytes: &[u8], answer: &[u8]) {
        self.stdin.extend(format!("{}\n", bytes.len()).bytes());
        self.stdin.extend(bytes);
        self.stdout.extend(answer);
    }

    /// Writes the files `stdin` and `stdout` of a program's folder.
    pub fn write(&self, folder: &Path) -> io::Result<()> {
        fs::create_dir_all(folder)?;
        fs::write(folder.join("stdin"), &self.stdin)?;
        fs::write(folder.join("stdout"), &self.stdout)
    }
}
