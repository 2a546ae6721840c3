//! The root that the sheets name: the runtime as the accessors' texts see it. The texts are those of a newer capnpc, and
//! what they call is that of capnp 0.14 except for what is defined here.

use capnp::private::layout::{StructBuilder, StructReader};

pub use capnp::{any_pointer, capability, capability_list, data, data_list, enum_list, list_list};
pub use capnp::{primitive_list, struct_list, text, text_list, word, NotInSchema, Result, Word};

pub mod traits {
    use capnp::private::layout::PointerBuilder;
    use capnp::traits::SetPointerBuilder;
    use capnp::Result;
    use capnp::{capability_list, data, data_list, enum_list, list_list, primitive_list, struct_list, text, text_list};

    pub use capnp::traits::{FromPointerBuilder, FromPointerReader};

    /// A type parameter's types. In capnp 0.14 the lifetime is the trait's, not that of its types.
    pub trait Owned {
        type Reader<'a>: FromPointerReader<'a>;
        type Builder<'a>: FromPointerBuilder<'a>;
    }

    impl<T: for<'a> capnp::traits::Owned<'a>> Owned for T {
        type Reader<'a> = <T as capnp::traits::Owned<'a>>::Reader;
        type Builder<'a> = <T as capnp::traits::Owned<'a>>::Builder;
    }

    /// What a pointer slot of the type `Receiver` can be set to. In capnp 0.14 it is `SetPointerBuilder`, which does not
    /// name the receiver.
    pub trait SetterInput<Receiver> {
        fn set_pointer_builder(builder: PointerBuilder<'_>, input: Self, canonicalize: bool) -> Result<()>;
    }

    macro_rules! setter_input {
        ($([$($parameters:tt)*] $receiver:ty, $input:ty;)*) => { $(
            impl<$($parameters)*> SetterInput<$receiver> for $input {
                fn set_pointer_builder(builder: PointerBuilder<'_>, input: Self, canonicalize: bool) -> Result<()> {
                    SetPointerBuilder::set_pointer_builder(builder, input, canonicalize)
                }
            }
        )* };
    }

    setter_input! {
        [] text::Owned, text::Reader<'_>;
        [] data::Owned, data::Reader<'_>;
        [] text_list::Owned, text_list::Reader<'_>;
        [] data_list::Owned, data_list::Reader<'_>;
        [T: capnp::private::layout::PrimitiveElement] primitive_list::Owned<T>, primitive_list::Reader<'_, T>;
        [T: capnp::traits::FromU16] enum_list::Owned<T>, enum_list::Reader<'_, T>;
        [T: for<'b> capnp::traits::OwnedStruct<'b>] struct_list::Owned<T>, struct_list::Reader<'_, T>;
        [T: capnp::capability::FromClientHook] capability_list::Owned<T>, capability_list::Reader<'_, T>;
        [T: for<'b> capnp::traits::Owned<'b>] list_list::Owned<T>, list_list::Reader<'_, T>;
    }
}

/// The methods of `StructReader` that capnp 0.14 does not have.
pub trait ReaderMethods {
    fn is_pointer_field_null(&self, index: usize) -> bool;
}

impl ReaderMethods for StructReader<'_> {
    fn is_pointer_field_null(&self, index: usize) -> bool {
        self.get_pointer_field(index).is_null()
    }
}

/// The methods of `StructBuilder` that capnp 0.14 does not have. There a `StructBuilder` is copied instead.
pub trait BuilderMethods {
    fn reborrow(&mut self) -> StructBuilder<'_>;
    fn is_pointer_field_null(&self, index: usize) -> bool;
}

impl BuilderMethods for StructBuilder<'_> {
    fn reborrow(&mut self) -> StructBuilder<'_> {
        *self
    }

    fn is_pointer_field_null(&self, index: usize) -> bool {
        self.get_pointer_field(index).is_null()
    }
}
