// Gets and tests, at any offset, in three ways: by the runtime's reader and builder on a record, and by the library on a copy of
// its bytes. Answers are bits.
use crate::accessors::{Builder, Kind, Reader, KINDS};
use crate::kitlubas;
use crate::random::Random;
use crate::tally::Ends;

#[derive(Clone, Copy)]
pub enum Get {
    Bool { offset: u32, mask: Option<bool> },
    Data { kind: Kind, offset: u32, mask: Option<u64> },
    Tag { offset: u32, member: u16 },
    Null { offset: u32 },
}

// Where a get lies: wholly inside its section, over its end, or past it.
#[derive(Clone, Copy, PartialEq)]
pub enum Place {
    Inside,
    Split,
    Past,
}

// An offset inside so many places or shortly past them; now and then one that 32 bits of its address would take for such a one,
// or one of the largest.
pub fn offset(places: usize, random: &mut Random) -> u32 {
    let near = random.below(places as u64 + 2) as u32;
    match random.below(16) {
        0 => near | 1 << (28 + random.below(4)),
        1 => !near,
        _ => near,
    }
}

// The answer of the runtime's reader or builder, which have the same methods.
macro_rules! answer {
    ($get:expr, $record:expr) => {
        match $get {
            Get::Bool { offset, mask } => $record.get_bool(offset as usize, mask) as u64,
            Get::Data { kind, offset, mask } => $record.get_data(kind, offset as usize, mask),
            Get::Tag { offset, member } => {
                ($record.get_data(Kind::Uint16, offset as usize, None) == member as u64) as u64
            }
            Get::Null { offset } => $record.is_null(offset as usize) as u64,
        }
    };
}

impl Get {
    // A get or a test of a record with these bytes and pointers.
    pub fn any(section: &[u8], pointers: &[u8], random: &mut Random) -> Get {
        match random.below(8) {
            0 | 1 => {
                let (offset, mask) = (offset(section.len() * 8 + 7, random), random.below(2) == 1);
                Get::Bool { offset, mask: random.maybe(mask) }
            }
            2..=4 => {
                let kind = KINDS[random.below(KINDS.len() as u64) as usize];
                let mask = random.bits(kind.width());
                let offset = offset(section.len() / kind.width() as usize, random);
                Get::Data { kind, offset, mask: random.maybe(mask) }
            }
            5 => {
                let offset = offset(section.len() / 2, random);
                let found = kitlubas::get_data(section, 2, offset, None).unwrap_or(0) as u16;
                let member = if random.below(2) == 0 { found } else { random.bits(2) as u16 };
                Get::Tag { offset, member }
            }
            _ => Get::Null { offset: offset(pointers.len(), random) },
        }
    }

    // Of a record's data bytes and pointers those that it is about.
    pub fn choose<'b>(self, section: &'b [u8], pointers: &'b [u8]) -> &'b [u8] {
        match self {
            Get::Null { .. } => pointers,
            _ => section,
        }
    }

    // Where it lies in so many bytes, or pointers.
    pub fn place(self, length: usize) -> Place {
        let (start, size, end) = match self {
            Get::Bool { offset, .. } => (offset as u64, 1, length as u64 * 8),
            Get::Data { kind, offset, .. } => (offset as u64 * kind.width() as u64, kind.width() as u64, length as u64),
            Get::Tag { offset, .. } => (offset as u64 * 2, 2, length as u64),
            Get::Null { offset } => (offset as u64, 1, length as u64),
        };
        if start + size <= end {
            Place::Inside
        } else if start < end {
            Place::Split
        } else {
            Place::Past
        }
    }

    // What the encoding says of a get that is not wholly inside: zero bits, under the mask; a pointer that is not there is null.
    fn of_zeros(self) -> u64 {
        match self {
            Get::Bool { mask, .. } => mask.unwrap_or(false) as u64,
            Get::Data { mask, .. } => mask.unwrap_or(0),
            Get::Tag { member, .. } => (member == 0) as u64,
            Get::Null { .. } => 1,
        }
    }

    pub fn of_reader(self, record: Reader) -> u64 {
        answer!(self, record)
    }

    // Only of a get that is wholly inside: the builder does not test the length.
    pub fn of_builder(self, record: Builder) -> u64 {
        answer!(self, record)
    }

    // None where the library says that a number has no such width.
    pub fn of_bytes(self, bytes: &[u8]) -> Option<u64> {
        match self {
            Get::Bool { offset, mask } => Some(kitlubas::get_bool(bytes, offset, mask) as u64),
            Get::Data { kind, offset, mask } => kitlubas::get_data(bytes, kind.width(), offset, mask),
            Get::Tag { offset, member } => Some(kitlubas::tag_is(bytes, offset, member) as u64),
            Get::Null { offset } => Some(kitlubas::is_pointer_null(bytes, offset) as u64),
        }
    }

    // Whether an answer of the runtime on a record of these bytes is what the encoding says past the end, and the library's at
    // each length that the bytes are cut to: the same where the get is still inside, else what the encoding says.
    pub fn is_right_at_every_length(self, answer: u64, bytes: &[u8], ends: &mut Ends) -> bool {
        let zeros = self.of_zeros();
        let is_right = self.place(bytes.len()) == Place::Inside || answer == zeros;
        is_right
            && (0..=bytes.len()).all(|n| {
                let place = self.place(n);
                ends.count(self, place);
                self.of_bytes(&bytes[..n]) == Some(if place == Place::Inside { answer } else { zeros })
            })
    }
}
