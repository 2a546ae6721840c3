//! `Node`: an N line with its parameters and, where it is a struct, its fields.

pub use self::Which::{Other, Struct};
use crate::sheet;
use crate::standins::list::List;
use crate::standins::Result;

#[derive(Clone, Copy)]
pub struct Reader<'a>(pub &'a sheet::Node);

pub enum Which<'a> {
    Struct(struct_::Reader<'a>),
    /// A file, an enum, an interface, a constant or an annotation: the sheet does not say which.
    Other,
}

impl<'a> Reader<'a> {
    pub fn get_scope_id(&self) -> u64 {
        self.0.scope_id
    }

    pub fn get_parameters(&self) -> Result<List<'a, String>> {
        Ok(List(&self.0.parameters))
    }

    pub fn which(&self) -> Result<Which<'a>> {
        Ok(if self.0.is_struct { Struct(struct_::Reader::new(self.0)) } else { Other })
    }
}

pub mod struct_ {
    use crate::sheet::{Field, Node};
    use crate::standins::levels::GroupLevel;
    use crate::standins::list::List;
    use crate::standins::Result;

    /// Not `Copy`: `zero_fields_of_group` holds it while it goes through the fields.
    pub struct Reader<'a> {
        node: &'a Node,
        _level: GroupLevel,
    }

    impl<'a> Reader<'a> {
        pub fn new(node: &'a Node) -> Reader<'a> {
            Reader { node, _level: GroupLevel::open() }
        }

        pub fn get_discriminant_count(&self) -> u16 {
            self.node.tag_count
        }

        pub fn get_discriminant_offset(&self) -> u32 {
            self.node.tag_offset
        }

        pub fn get_fields(&self) -> Result<List<'a, Field>> {
            Ok(List(&self.node.fields))
        }
    }
}

pub mod parameter {
    use crate::standins::list::{List, Part};
    use crate::standins::refusal::refuse;
    use crate::standins::{text, Result};

    #[derive(Clone, Copy)]
    pub struct Reader<'a>(&'a str);

    impl Part for String {
        type Reader<'a> = Reader<'a>;

        fn reader(&self) -> Reader<'_> {
            Reader(self)
        }
    }

    impl<'a> Reader<'a> {
        pub fn get_name(&self) -> Result<text::Reader<'a>> {
            Ok(text::Reader(self.0))
        }
    }

    impl<'a> List<'a, String> {
        /// The runtime panics at an index past the end.
        pub fn get(&self, index: u32) -> Reader<'a> {
            self.0.get(index as usize).map_or_else(|| refuse(13), |name| Reader(name))
        }
    }
}
