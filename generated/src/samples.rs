//! Values of pointer slots: made from a seed in a message of their own, and shown as text to be compared.

use crate::accessors::{pointer_union, pointers};
use crate::enums::Whole;
use crate::random::Random;
use crate::values::{Bits, Value};
use capnp::private::layout::PrimitiveElement;
use capnp::traits::{FromU16, Owned, OwnedStruct, ToU16};
use capnp::{
    any_pointer, data, data_list, enum_list, list_list, message, primitive_list, struct_list, text, text_list,
};

/// A type that a value can be made of.
pub trait Sample: for<'a> Owned<'a> {
    fn fill(pointer: any_pointer::Builder<'_>, random: &mut Random);
}

/// What can be shown; two values of a type are equal where they are shown alike.
pub trait Show {
    fn show(self) -> String;
}

/// What a setter answers.
pub trait Done {
    fn done(self);
}

impl Done for () {
    fn done(self) {}
}

impl Done for capnp::Result<()> {
    fn done(self) {
        self.expect("the setter has nothing to refuse");
    }
}

/// Hands over the value of a seed, and shows it.
pub fn with<T: Sample>(seed: u64, set: impl for<'a> FnOnce(<T as Owned<'a>>::Reader)) -> String
where
    for<'a> <T as Owned<'a>>::Reader: Show,
{
    let mut message = message::Builder::new_default();
    T::fill(message.init_root(), &mut Random::new(seed));
    set(message.get_root_as_reader::<<T as Owned<'_>>::Reader>().expect("the value can be read"));
    message.get_root_as_reader::<<T as Owned<'_>>::Reader>().show()
}

/// Shows the value of a message with these words; without words, of a null pointer.
pub fn default<T: for<'a> Owned<'a>>(words: &[u64]) -> String
where
    for<'a> <T as Owned<'a>>::Reader: Show,
{
    let mut segment = capnp::Word::allocate_zeroed_vec(words.len().max(1));
    for (to, word) in capnp::Word::words_to_bytes_mut(&mut segment).chunks_mut(8).zip(words) {
        to.copy_from_slice(&word.to_le_bytes());
    }
    let segments = [capnp::Word::words_to_bytes(&segment)];
    let message = message::Reader::new(message::SegmentArray::new(&segments), message::ReaderOptions::new());
    message.get_root::<<T as Owned<'_>>::Reader>().show()
}

/// What an absent optional slot shows.
pub fn none() -> String {
    None::<&str>.show()
}

// ---- making

fn letters(random: &mut Random) -> String {
    (0..random.below(20)).map(|_| (b'a' + random.below(26) as u8) as char).collect()
}

fn bytes(random: &mut Random) -> Vec<u8> {
    (0..random.below(20)).map(|_| random.next() as u8).collect()
}

fn size(random: &mut Random) -> u32 {
    random.below(9) as u32
}

impl Sample for text::Owned {
    fn fill(pointer: any_pointer::Builder<'_>, random: &mut Random) {
        pointer.set_as(&letters(random)[..]).expect("a Text can be set");
    }
}

impl Sample for data::Owned {
    fn fill(pointer: any_pointer::Builder<'_>, random: &mut Random) {
        pointer.set_as(&bytes(random)[..]).expect("a Data can be set");
    }
}

impl<T: PrimitiveElement + Value> Sample for primitive_list::Owned<T> {
    fn fill(pointer: any_pointer::Builder<'_>, random: &mut Random) {
        let mut list: primitive_list::Builder<T> = pointer.initn_as(size(random));
        for index in 0..list.len() {
            list.set(index, T::of_bits(random.next()));
        }
    }
}

impl Sample for enum_list::Owned<Whole> {
    fn fill(pointer: any_pointer::Builder<'_>, random: &mut Random) {
        let mut list: enum_list::Builder<Whole> = pointer.initn_as(size(random));
        for index in 0..list.len() {
            list.set(index, Whole::of_bits(random.next()));
        }
    }
}

impl Sample for text_list::Owned {
    fn fill(pointer: any_pointer::Builder<'_>, random: &mut Random) {
        let mut list: text_list::Builder = pointer.initn_as(size(random));
        for index in 0..list.len() {
            list.set(index, &letters(random));
        }
    }
}

impl Sample for data_list::Owned {
    fn fill(pointer: any_pointer::Builder<'_>, random: &mut Random) {
        let mut list: data_list::Builder = pointer.initn_as(size(random));
        for index in 0..list.len() {
            list.set(index, &bytes(random));
        }
    }
}

impl Sample for list_list::Owned<primitive_list::Owned<u16>> {
    fn fill(pointer: any_pointer::Builder<'_>, random: &mut Random) {
        let mut list: list_list::Builder<primitive_list::Owned<u16>> = pointer.initn_as(size(random));
        for index in 0..list.len() {
            let mut inner = list.reborrow().init(index, size(random));
            for at in 0..inner.len() {
                inner.set(at, random.next() as u16);
            }
        }
    }
}

// ---- showing

fn shown_list(elements: impl Iterator<Item = String>) -> String {
    format!("[{}]", elements.collect::<Vec<_>>().join(", "))
}

impl<T: Show> Show for capnp::Result<T> {
    fn show(self) -> String {
        self.map_or_else(|error| format!("error {error}"), T::show)
    }
}

impl<T: Show> Show for Option<T> {
    fn show(self) -> String {
        self.map_or("none".into(), T::show)
    }
}

impl Show for &str {
    fn show(self) -> String {
        format!("{self:?}")
    }
}

impl Show for text::Builder<'_> {
    fn show(self) -> String {
        (*self).show()
    }
}

impl Show for &[u8] {
    fn show(self) -> String {
        format!("{self:?}")
    }
}

impl Show for &mut [u8] {
    fn show(self) -> String {
        format!("{self:?}")
    }
}

impl<T: PrimitiveElement + Bits> Show for primitive_list::Reader<'_, T> {
    fn show(self) -> String {
        shown_list(self.iter().map(|element| element.bits().to_string()))
    }
}

impl<T: FromU16 + Bits> Show for enum_list::Reader<'_, T> {
    fn show(self) -> String {
        shown_list(self.iter().map(|element| element.bits().to_string()))
    }
}

impl Show for text_list::Reader<'_> {
    fn show(self) -> String {
        shown_list(self.iter().map(Show::show))
    }
}

impl Show for data_list::Reader<'_> {
    fn show(self) -> String {
        shown_list(self.iter().map(Show::show))
    }
}

impl<'a, T: for<'b> Owned<'b>> Show for list_list::Reader<'a, T>
where
    <T as Owned<'a>>::Reader: Show,
{
    fn show(self) -> String {
        shown_list(self.iter().map(Show::show))
    }
}

impl<'a, T: for<'b> OwnedStruct<'b>> Show for struct_list::Reader<'a, T>
where
    <T as OwnedStruct<'a>>::Reader: Show,
{
    fn show(self) -> String {
        shown_list(self.iter().map(Show::show))
    }
}

impl Show for any_pointer::Reader<'_> {
    fn show(self) -> String {
        if self.is_null() {
            return "null".into();
        }
        self.get_as::<text::Reader>().show()
    }
}

/// Builders are shown as their readers are.
macro_rules! builders {
    ($([$($parameters:tt)*] $builder:ty;)*) => { $(
        impl<'a, $($parameters)*> Show for $builder {
            fn show(self) -> String {
                self.into_reader().show()
            }
        }
    )* };
}

builders! {
    [T: PrimitiveElement + Bits] primitive_list::Builder<'a, T>;
    [T: FromU16 + ToU16 + Bits] enum_list::Builder<'a, T>;
    [] text_list::Builder<'a>;
    [] data_list::Builder<'a>;
    [] list_list::Builder<'a, primitive_list::Owned<u16>>;
    [] any_pointer::Builder<'a>;
}

/// The structs that the sheets with pointer slots have.
macro_rules! structs_of {
    ($($sheet:ident)*) => { $(
        impl Sample for $sheet::point::Owned {
            fn fill(pointer: any_pointer::Builder<'_>, random: &mut Random) {
                let mut point: $sheet::point::Builder = pointer.init_as();
                point.set_rank(random.next() as i32);
                point.set_label(&letters(random)[..]);
            }
        }

        impl Sample for $sheet::boxed::Owned<text::Owned> {
            fn fill(pointer: any_pointer::Builder<'_>, random: &mut Random) {
                let mut boxed: $sheet::boxed::Builder<text::Owned> = pointer.init_as();
                boxed.set_content(&letters(random)[..]).expect("a Text can be set");
            }
        }

        impl Sample for struct_list::Owned<$sheet::point::Owned> {
            fn fill(pointer: any_pointer::Builder<'_>, random: &mut Random) {
                let mut list: struct_list::Builder<$sheet::point::Owned> = pointer.initn_as(size(random));
                for index in 0..list.len() {
                    list.reborrow().get(index).set_rank(random.next() as i32);
                    list.reborrow().get(index).set_label(&letters(random)[..]);
                }
            }
        }

        impl Show for $sheet::point::Reader<'_> {
            fn show(self) -> String {
                format!("(rank = {}, label = {})", self.get_rank(), self.get_label().show())
            }
        }

        impl Show for $sheet::boxed::Reader<'_, text::Owned> {
            fn show(self) -> String {
                format!("(content = {})", self.get_content().show())
            }
        }

        builders! {
            [] $sheet::point::Builder<'a>;
            [] $sheet::boxed::Builder<'a, text::Owned>;
            [] struct_list::Builder<'a, $sheet::point::Owned>;
        }
    )* };
}

structs_of! { pointers pointer_union }
