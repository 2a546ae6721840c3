// Roots of messages: a new record of any size, and a record or a list's elements opened with sizes that they were not written
// with, as a schema does that has more fields. What is too short the runtime then copies into room of the sizes asked for.
use capnp::message::{self, HeapAllocator};
use capnp::private::layout::{PointerBuilder, StructBuilder, StructSize};
use capnp::traits::FromPointerBuilder;
use capnp::{Result, Word};

pub type Message = message::Builder<HeapAllocator>;

struct Root<'a>(PointerBuilder<'a>);

impl<'a> FromPointerBuilder<'a> for Root<'a> {
    fn init_pointer(builder: PointerBuilder<'a>, _: u32) -> Root<'a> {
        Root(builder)
    }

    fn get_from_pointer(builder: PointerBuilder<'a>, _: Option<&'a [Word]>) -> Result<Root<'a>> {
        Ok(Root(builder))
    }
}

fn root(message: &mut Message) -> PointerBuilder<'_> {
    let Root(pointer) = message.init_root();
    pointer
}

// A new record, all zero.
pub fn new_record(message: &mut Message, data: u16, pointers: u16) -> StructBuilder<'_> {
    root(message).init_struct(StructSize { data, pointers })
}

// The record that was written there, with so many words and pointers at least.
pub fn open_record(message: &mut Message, data: u16, pointers: u16) -> StructBuilder<'_> {
    root(message).get_struct(StructSize { data, pointers }, None).expect("the root is a record")
}

// The elements of the list that was written there, as records of so many words and pointers at least.
pub fn open_elements(message: &mut Message, data: u16, pointers: u16) -> Vec<StructBuilder<'_>> {
    let list = root(message).get_struct_list(StructSize { data, pointers }, None).expect("the root is a list");
    (0..list.len()).map(|at| list.get_struct_element(at)).collect()
}
