// Records of 1, 2, 4 or 8 bytes, or of one pointer: the elements of a list of numbers or texts, read as structs, as by a schema
// in which the list's elements became structs. Other sections are whole words, so that only these end in the middle of a slot.
use crate::random::Random;
use crate::roots::Message;
use capnp::private::layout::{ElementSize, ListReader, PointerReader, StructReader};
use capnp::traits::FromPointerReader;
use capnp::{any_pointer, primitive_list, text_list, Result, Word};

pub const COUNT: u32 = 4;

struct Elements<'a>(ListReader<'a>);

impl<'a> FromPointerReader<'a> for Elements<'a> {
    fn get_from_pointer(reader: &PointerReader<'a>, default: Option<&'a [Word]>) -> Result<Elements<'a>> {
        Ok(Elements(reader.get_list(ElementSize::InlineComposite, default)?))
    }
}

// The data bytes of an element, and a byte for each of its pointers.
pub struct Element {
    pub section: Vec<u8>,
    pub pointers: Vec<u8>,
}

// Fills a message with a list of random numbers of a random width, or of texts of which some are null.
pub fn fill(message: &mut Message, random: &mut Random) -> Vec<Element> {
    macro_rules! numbers {
        ($root:expr, $typ:ty) => {{
            let mut list: primitive_list::Builder<$typ> = $root.initn_as(COUNT);
            let mut number = |i| {
                let number = random.next() as $typ;
                list.set(i, number);
                Element { section: number.to_le_bytes().to_vec(), pointers: Vec::new() }
            };
            (0..COUNT).map(&mut number).collect()
        }};
    }
    let which = random.below(5);
    let root: any_pointer::Builder = message.init_root();
    match which {
        0 => numbers!(root, u8),
        1 => numbers!(root, u16),
        2 => numbers!(root, u32),
        3 => numbers!(root, u64),
        _ => {
            let mut list: text_list::Builder = root.initn_as(COUNT);
            let mut text = |i| {
                let is_set = random.below(2) == 1;
                if is_set {
                    list.set(i, "bed");
                }
                Element { section: Vec::new(), pointers: vec![is_set as u8] }
            };
            (0..COUNT).map(&mut text).collect()
        }
    }
}

// The elements of a message's list as records.
pub fn records(message: &Message) -> Vec<StructReader<'_>> {
    let Elements(list) = message.get_root_as_reader().expect("the list can be read");
    (0..COUNT).map(|i| list.get_struct_element(i)).collect()
}
