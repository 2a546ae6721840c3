//! `get_struct_pointer_section`: the pointers of a value. Only the first of a pointer default is asked for.

use super::any_pointer;
use super::schema_capnp::value;

pub struct PointerSection<'a>(value::Reader<'a>);

pub fn get_struct_pointer_section(value: value::Reader<'_>) -> PointerSection<'_> {
    PointerSection(value)
}

impl<'a> PointerSection<'a> {
    pub fn get(&self, index: u32) -> any_pointer::Reader<'a> {
        assert_eq!(index, 0, "a default has one pointer");
        any_pointer::Reader { words: self.0.words() }
    }
}
