// What was compared, what differed, and which gets were met.
use crate::gets::{Get, Place};

// Gets and tests, and those of them that are not wholly inside: of data, how many of these begin inside, and of pointers.
#[derive(Default)]
pub struct Ends {
    all: u64,
    past: u64,
    split: u64,
    absent: u64,
}

impl Ends {
    pub fn count(&mut self, get: Get, place: Place) {
        let is_past = (place != Place::Inside) as u64;
        self.all += 1;
        match get {
            Get::Null { .. } => self.absent += is_past,
            Get::Bool { .. } | Get::Data { .. } | Get::Tag { .. } => self.past += is_past,
        }
        self.split += (place == Place::Split) as u64;
    }

    // Each sort was met.
    fn is_whole(&self) -> bool {
        self.past > 0 && self.split > 0 && self.absent > 0
    }

    fn print(&self, of: &str) {
        let Ends { all, past, split, absent } = self;
        println!(
            "{of}: {all} gets and tests; past the end {past} of data ({split} begin inside), {absent} of pointers"
        );
        if !self.is_whole() {
            println!("{of}: a sort of get past the end was not met");
        }
    }
}

#[derive(Default)]
pub struct Tally {
    pub records: u64,
    pub operations: u64,
    pub different: u64,
    // Of the runtime's readers, of its builders on records that were written short, and of the library at every length.
    pub readers: Ends,
    pub builders: Ends,
    pub library: Ends,
}

impl Tally {
    pub fn count(&mut self, is_right: bool) {
        self.operations += 1;
        self.different += !is_right as u64;
    }

    pub fn record(&mut self, is_right: bool) {
        self.records += 1;
        self.different += !is_right as u64;
    }

    // Nothing differed, and no sort of get was left out.
    pub fn is_right(&self) -> bool {
        self.different == 0 && [&self.readers, &self.builders, &self.library].iter().all(|ends| ends.is_whole())
    }

    pub fn print(&self) {
        self.readers.print("readers");
        self.builders.print("builders of records written short");
        self.library.print("the library at every length");
        println!("{} operations on {} records, {} different", self.operations, self.records, self.different);
    }
}
