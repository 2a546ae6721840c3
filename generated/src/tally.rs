//! What was compared, and what differed.

use crate::meaning::Place;
use crate::slots::Slot;

/// Differences that are printed; the others are only counted.
const SHOWN: u64 = 20;

/// Reads that are not wholly inside their record.
#[derive(Default)]
pub struct Past {
    /// Gets of data slots, and those of them of which some bytes are there.
    gets: u64,
    split: u64,
    /// Hasers, or decoded pointers, whose pointer or tag is not there.
    pointers: u64,
}

impl Past {
    pub fn get(&mut self, place: Place, section: &[u8]) {
        self.gets += u64::from(!place.is_inside(section));
        self.split += u64::from(place.is_split(section));
    }

    pub fn pointer(&mut self, is_inside: bool) {
        self.pointers += u64::from(!is_inside);
    }

    fn add(&mut self, part: &Past) {
        self.gets += part.gets;
        self.split += part.split;
        self.pointers += part.pointers;
    }

    fn print(&self, of: &str) {
        let Past { gets, split, pointers } = self;
        if gets + pointers > 0 {
            println!(
                "    past the end, {of}: {gets} gets ({split} of slots that begin inside), {pointers} of pointers"
            );
        }
    }
}

/// Values that were read after a paired setter had written them, and of these the ones in slots whose present setter has another
/// mask.
#[derive(Default)]
pub struct Paired {
    reads: u64,
    /// With a float default of -0.0.
    negative_zero: u64,
    /// With an enum default other than 0 and without its flag.
    flagless: u64,
    /// With an enum default of 0 and its flag.
    flagged_zero: u64,
    /// That were not read as they had been written.
    other: u64,
}

impl Paired {
    /// Counts a value that was read after it had been set.
    pub fn read(&mut self, slot: &Slot, written: u64, read: u64) {
        self.reads += 1;
        self.other += u64::from(read != written);
        match (slot.kind, slot.default, slot.explicit) {
            (10, 0x8000_0000, _) | (11, 0x8000_0000_0000_0000, _) => self.negative_zero += 1,
            (15, 0, true) => self.flagged_zero += 1,
            (15, 1.., false) => self.flagless += 1,
            _ => {}
        }
    }

    fn add(&mut self, part: &Paired) {
        self.reads += part.reads;
        self.negative_zero += part.negative_zero;
        self.flagless += part.flagless;
        self.flagged_zero += part.flagged_zero;
        self.other += part.other;
    }

    fn print(&self, of: &str) {
        let Paired { reads, negative_zero, flagless, flagged_zero, other } = self;
        if *reads > 0 {
            println!(
                "    {reads} values read {of}, {other} not as written; {negative_zero} with a float default of -0.0, {flagless} \
                 with an enum default without its flag, {flagged_zero} with an enum default 0 and its flag"
            );
        }
    }
}

#[derive(Default)]
pub struct Tally {
    /// Calls of compiled accessors, decoded fields, and encoded messages.
    pub operations: u64,
    pub different: u64,
    /// Values that were read after they had been set, and those of them that were not read as they had been written.
    pub reads: u64,
    /// In slots with a float default of -0.0.
    pub flipped: u64,
    /// In slots with an enum default without its flag.
    pub combined: u64,
    /// In any other slot.
    pub other: u64,
    /// Those that the theorem excepts.
    pub excepted: u64,
    /// From records, and from what `capnp encode` wrote.
    pub paired: Paired,
    pub encoded: Paired,
    /// Of readers, of builders on records that were written short, and of `capnp decode`.
    pub readers: Past,
    pub builders: Past,
    pub decoded: Past,
    /// Pointers that a cut message kept and that were decoded.
    pub kept: u64,
    /// Texts that write of which nothing is done, though some of their lines are inside.
    pub undone: u64,
}

impl Tally {
    /// Counts an operation, and a difference where it is not right.
    pub fn count(&mut self, right: bool, what: impl FnOnce() -> String) {
        self.operations += 1;
        if !right {
            self.different += 1;
            if self.different <= SHOWN {
                println!("different: {}", what());
            }
        }
    }

    /// Counts a value that was read after it had been set.
    pub fn read(&mut self, slot: &Slot, written: u64, read: u64) {
        self.reads += 1;
        self.excepted += u64::from(slot.expected(written) != written);
        if read != written {
            match slot.kind {
                10 if slot.default == 1 << 31 => self.flipped += 1,
                11 if slot.default == 1 << 63 => self.flipped += 1,
                15 if !slot.explicit => self.combined += 1,
                _ => self.other += 1,
            }
        }
    }

    pub fn add(&mut self, part: &Tally) {
        self.operations += part.operations;
        self.different += part.different;
        self.reads += part.reads;
        self.flipped += part.flipped;
        self.combined += part.combined;
        self.other += part.other;
        self.excepted += part.excepted;
        self.paired.add(&part.paired);
        self.encoded.add(&part.encoded);
        self.readers.add(&part.readers);
        self.builders.add(&part.builders);
        self.decoded.add(&part.decoded);
        self.kept += part.kept;
        self.undone += part.undone;
    }

    /// What a run must meet. A cut message has whole words, so that no slot of it is split.
    fn met(&self) -> [(u64, &'static str); 16] {
        [
            (self.readers.gets, "gets of readers past the end"),
            (self.readers.split, "gets of readers of slots split by the end"),
            (self.readers.pointers, "hasers of readers past the end"),
            (self.builders.gets, "gets of builders past the end"),
            (self.builders.split, "gets of builders of slots split by the end"),
            (self.builders.pointers, "hasers of builders past the end"),
            (self.decoded.gets, "slots past the end of decoded messages"),
            (self.decoded.pointers, "pointers cut from decoded messages"),
            (self.kept, "pointers kept in cut messages"),
            (self.undone, "texts that write in part past the end"),
            (self.paired.negative_zero, "paired setters with a float default of -0.0"),
            (self.paired.flagless, "paired setters with an enum default without its flag"),
            (self.paired.flagged_zero, "paired setters with an enum default 0 and its flag"),
            (self.encoded.negative_zero, "encoded values with a float default of -0.0"),
            (self.encoded.flagless, "encoded values with an enum default without its flag"),
            (self.encoded.flagged_zero, "encoded values with an enum default 0 and its flag"),
        ]
    }

    /// Whether nothing differed, the exceptions are those of the theorem and no others, and nothing was left out.
    pub fn is_right(&self) -> bool {
        let is_whole = self.met().iter().all(|(count, _)| *count > 0);
        let is_excepted = self.flipped + self.combined == self.excepted;
        let others = self.other + self.paired.other + self.encoded.other;
        self.different == 0 && others == 0 && is_excepted && is_whole
    }

    pub fn print_left_out(&self) {
        for (_, what) in self.met().iter().filter(|(count, _)| *count == 0) {
            println!("left out: {what}");
        }
    }

    pub fn print(&self, part: &str) {
        println!("{part}: {} operations, {} different", self.operations, self.different);
        if self.reads > 0 {
            println!(
                "    {} values read after they were set: {} with the sign flipped (float default -0.0), {} combined with the \
                 default (enum without its flag), {} else not as written; the theorem says {}",
                self.reads, self.flipped, self.combined, self.other, self.excepted
            );
        }
        self.paired.print("after paired setters");
        self.encoded.print("from what was encoded");
        self.readers.print("readers");
        self.builders.print("builders of records written short");
        self.decoded.print("decoded");
        if self.kept + self.undone > 0 {
            println!(
                "    {} pointers kept in cut messages, {} texts that write in part past the end",
                self.kept, self.undone
            );
        }
    }
}
