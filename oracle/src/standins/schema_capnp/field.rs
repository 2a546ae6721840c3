//! `Field`: an F line as a slot, a G line as a group.

pub use self::Which::{Group, Slot};
use super::annotation::{self, Annotation};
use crate::sheet;
use crate::standins::list::{List, Part};
use crate::standins::{text, Result};

pub const NO_DISCRIMINANT: u16 = 65535;

#[derive(Clone, Copy)]
pub struct Reader<'a>(pub &'a sheet::Field);

pub enum Which<'a> {
    Slot(slot::Reader<'a>),
    Group(group::Reader<'a>),
}

impl Part for sheet::Field {
    type Reader<'a> = Reader<'a>;

    fn reader(&self) -> Reader<'_> {
        Reader(self)
    }
}

impl<'a> Reader<'a> {
    pub fn get_name(&self) -> Result<text::Reader<'a>> {
        Ok(text::Reader(self.0.name()))
    }

    pub fn get_discriminant_value(&self) -> u16 {
        match self.0 {
            sheet::Field::Slot(slot) => slot.discriminant,
            sheet::Field::Group(group) => group.discriminant,
        }
    }

    pub fn get_annotations(&self) -> Result<List<'a, Annotation>> {
        Ok(annotation::of(matches!(self.0, sheet::Field::Slot(slot) if slot.option)))
    }

    pub fn which(&self) -> Result<Which<'a>> {
        Ok(match self.0 {
            sheet::Field::Slot(slot) => Slot(slot::Reader(slot)),
            sheet::Field::Group(group) => Group(group::Reader(group)),
        })
    }
}

pub mod slot {
    use crate::sheet::Slot;
    use crate::standins::schema_capnp::{type_, value};
    use crate::standins::Result;

    #[derive(Clone, Copy)]
    pub struct Reader<'a>(pub &'a Slot);

    impl<'a> Reader<'a> {
        pub fn get_offset(&self) -> u32 {
            self.0.offset
        }

        pub fn get_type(&self) -> Result<type_::Reader<'a>> {
            Ok(type_::Reader(&self.0.typ))
        }

        pub fn get_default_value(&self) -> Result<value::Reader<'a>> {
            Ok(value::Reader::new(self.0.value, &self.0.words))
        }

        pub fn get_had_explicit_default(&self) -> bool {
            self.0.explicit
        }
    }
}

pub mod group {
    use crate::sheet::Group;
    use crate::standins::levels::next_group;

    #[derive(Clone, Copy)]
    pub struct Reader<'a>(pub &'a Group);

    impl Reader<'_> {
        pub fn get_type_id(&self) -> u64 {
            next_group();
            self.0.id
        }
    }
}
