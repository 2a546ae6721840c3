//! A record in a real message, and a copy of it: its data bytes, and a byte for each pointer, which is 0 where the
//! pointer is null. The compiled accessors work on the record, and the meaning of their texts on the copy.

use crate::elements::Element;
use crate::random::Random;
use crate::roots::{self, Message};
use capnp::private::layout::{CapTable, CapTableBuilder, PointerReader, StructBuilder, StructReader};
use capnp::traits::FromPointerReader;
use capnp::{Result, Word};

/// A struct that is read.
pub struct AnyReader<'a>(pub StructReader<'a>);

impl<'a> FromPointerReader<'a> for AnyReader<'a> {
    fn get_from_pointer(reader: &PointerReader<'a>, default: Option<&'a [Word]>) -> Result<AnyReader<'a>> {
        Ok(AnyReader(reader.get_struct(default)?))
    }
}

/// A new record that has the first words and pointers of a whole one. Its capabilities go into `caps`.
pub fn cut<'a>(
    whole: StructReader<'_>,
    (words, pointers): (u16, u16),
    message: &'a mut Message,
    caps: &'a mut CapTable,
) -> StructBuilder<'a> {
    let mut record = roots::new_record(message, words, pointers);
    record.imbue(CapTableBuilder::Plain(caps));
    for at in 0..words as usize {
        record.set_data_field::<u64>(at, whole.get_data_field(at));
    }
    for at in 0..pointers as usize {
        record.get_pointer_field(at).copy_from(whole.get_pointer_field(at), false).expect("a pointer can be copied");
    }
    record
}

pub struct Pair<'a> {
    pub record: StructBuilder<'a>,
    pub section: Vec<u8>,
    pub pointers: Vec<u8>,
}

impl<'a> Pair<'a> {
    /// A record with random data bytes and null pointers. Its capabilities go into `caps`.
    pub fn new(mut record: StructBuilder<'a>, caps: &'a mut CapTable, random: &mut Random) -> Pair<'a> {
        record.imbue(CapTableBuilder::Plain(caps));
        for word in 0..record.into_reader().get_data_section_size() / 64 {
            record.set_data_field::<u64>(word as usize, random.bits(8));
        }
        let pointers = vec![0; record.into_reader().get_pointer_section_size() as usize];
        let section = record.into_reader().get_data_section_as_blob().to_vec();
        Pair { record, section, pointers }
    }

    /// A record that was written short and opened with more: zeros stand behind what was written. Its capabilities are in
    /// `caps`.
    pub fn opened(mut record: StructBuilder<'a>, caps: &'a mut CapTable, short: &Element) -> Pair<'a> {
        record.imbue(CapTableBuilder::Plain(caps));
        let reader = record.into_reader();
        let (mut section, mut pointers) = (short.section.clone(), short.pointers.clone());
        section.resize(reader.get_data_section_size() as usize / 8, 0);
        pointers.resize(reader.get_pointer_section_size() as usize, 0);
        Pair { record, section, pointers }
    }

    pub fn is_null(&self, pointer: usize) -> bool {
        self.record.get_pointer_field(pointer).is_null()
    }

    /// Whether every data byte and every pointer is as in the copy.
    pub fn same(&self) -> bool {
        self.record.into_reader().get_data_section_as_blob() == &self.section[..]
            && self.pointers.iter().enumerate().all(|(at, flag)| self.is_null(at) == (*flag == 0))
    }
}
