// Sets and clears, at any offset: by the runtime's builder on a record, and by the library on a copy of its bytes.
use crate::accessors::{Builder, Kind, KINDS};
use crate::gets::offset;
use crate::kitlubas;
use crate::random::Random;

#[derive(Clone, Copy)]
pub enum Set {
    Bool { offset: u32, value: bool, mask: Option<bool> },
    Data { kind: Kind, offset: u32, value: u64, mask: Option<u64> },
    Clear { offset: u32 },
}

impl Set {
    // A set or a clear in a record with these bytes and pointers.
    pub fn any(section: &[u8], pointers: &[u8], random: &mut Random) -> Set {
        match random.below(7) {
            0 | 1 => {
                let offset = offset(section.len() * 8 + 7, random);
                let (value, mask) = (random.below(2) == 1, random.below(2) == 1);
                Set::Bool { offset, value, mask: random.maybe(mask) }
            }
            2..=5 => {
                let kind = KINDS[random.below(KINDS.len() as u64) as usize];
                let offset = offset(section.len() / kind.width() as usize, random);
                let (value, mask) = (random.bits(kind.width()), random.bits(kind.width()));
                Set::Data { kind, offset, value, mask: random.maybe(mask) }
            }
            _ => Set::Clear { offset: offset(pointers.len(), random) },
        }
    }

    // Whether all that is written lies in so many bytes, or pointers.
    pub fn is_inside(self, length: usize) -> bool {
        let end = match self {
            Set::Bool { offset, .. } => offset as u64 / 8 + 1,
            Set::Data { kind, offset, .. } => (offset as u64 + 1) * kind.width() as u64,
            Set::Clear { offset } => offset as u64 + 1,
        };
        end <= length as u64
    }

    // Only of a set that is inside: the builder does not test the length.
    pub fn in_record(self, record: Builder) {
        match self {
            Set::Bool { offset, value, mask } => record.set_bool(offset as usize, value, mask),
            Set::Data { kind, offset, value, mask } => record.set_data(kind, offset as usize, value, mask),
            Set::Clear { offset } => record.clear(offset as usize),
        }
    }

    // Of a record's data bytes and pointers those that it is about.
    pub fn choose<'b>(self, section: &'b mut [u8], pointers: &'b mut [u8]) -> &'b mut [u8] {
        match self {
            Set::Bool { .. } | Set::Data { .. } => section,
            Set::Clear { .. } => pointers,
        }
    }

    // By the library, which says whether it is done.
    fn in_bytes(self, bytes: &mut [u8]) -> bool {
        match self {
            Set::Bool { offset, value, mask } => kitlubas::set_bool(bytes, offset, value, mask),
            Set::Data { kind, offset, value, mask } => kitlubas::set_data(bytes, kind.width(), offset, value, mask),
            Set::Clear { offset } => kitlubas::clear(bytes, offset),
        }
    }

    // In the bytes, and in a copy of them that is cut to each length: there it is done as in the whole, or, where it is not
    // inside, refused, and nothing is changed.
    pub fn is_right_at_every_length(self, bytes: &mut [u8]) -> bool {
        let before = bytes.to_vec();
        let is_right = self.in_bytes(bytes) == self.is_inside(bytes.len());
        let mut cut = before.clone();
        is_right
            && (0..=before.len()).all(|n| {
                cut.copy_from_slice(&before);
                let is_inside = self.is_inside(n);
                self.in_bytes(&mut cut[..n]) == is_inside && cut == if is_inside { &*bytes } else { &before }
            })
    }
}
