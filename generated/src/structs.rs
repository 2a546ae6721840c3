//! What stands around the accessors of a struct, as capnpc writes it, but for the traits of capnp 0.14.

/// `Owned`, `Reader` and `Builder` of a struct with these type parameters, words of data and pointers; and `Paired`, a builder
/// whose setters are the paired ones, which have the names of those of `Builder`.
#[macro_export]
macro_rules! structs {
    ([$($p:ident),*], $data:expr, $pointers:expr) => {
        #[allow(unused_imports)]
        use $crate::runtime::{BuilderMethods as _, ReaderMethods as _};
        use capnp::private::layout::{PointerBuilder, PointerReader, StructBuilder, StructReader, StructSize};
        use std::marker::PhantomData;

        #[allow(dead_code)]
        pub struct Owned<$($p),*>(PhantomData<($($p,)*)>);

        impl<'a, $($p: for<'x> capnp::traits::Owned<'x> + 'static),*> capnp::traits::Owned<'a> for Owned<$($p),*> {
            type Reader = Reader<'a, $($p),*>;
            type Builder = Builder<'a, $($p),*>;
        }

        impl<'a, $($p: for<'x> capnp::traits::Owned<'x> + 'static),*> capnp::traits::OwnedStruct<'a> for Owned<$($p),*> {
            type Reader = Reader<'a, $($p),*>;
            type Builder = Builder<'a, $($p),*>;
        }

        pub struct Reader<'a, $($p: for<'x> capnp::traits::Owned<'x> + 'static),*> {
            reader: StructReader<'a>,
            _phantom: PhantomData<($($p,)*)>,
        }

        impl<'a, $($p: for<'x> capnp::traits::Owned<'x> + 'static),*> Clone for Reader<'a, $($p),*> {
            fn clone(&self) -> Self {
                *self
            }
        }

        impl<'a, $($p: for<'x> capnp::traits::Owned<'x> + 'static),*> Copy for Reader<'a, $($p),*> {}

        impl<'a, $($p: for<'x> capnp::traits::Owned<'x> + 'static),*> From<StructReader<'a>> for Reader<'a, $($p),*> {
            fn from(reader: StructReader<'a>) -> Self {
                Reader { reader, _phantom: PhantomData }
            }
        }

        impl<'a, $($p: for<'x> capnp::traits::Owned<'x> + 'static),*> capnp::traits::FromStructReader<'a>
            for Reader<'a, $($p),*>
        {
            fn new(reader: StructReader<'a>) -> Self {
                reader.into()
            }
        }

        impl<'a, $($p: for<'x> capnp::traits::Owned<'x> + 'static),*> capnp::traits::FromPointerReader<'a>
            for Reader<'a, $($p),*>
        {
            fn get_from_pointer(reader: &PointerReader<'a>, default: Option<&'a [capnp::Word]>) -> capnp::Result<Self> {
                Ok(reader.get_struct(default)?.into())
            }
        }

        impl<'a, $($p: for<'x> capnp::traits::Owned<'x> + 'static),*> capnp::traits::IntoInternalStructReader<'a>
            for Reader<'a, $($p),*>
        {
            fn into_internal_struct_reader(self) -> StructReader<'a> {
                self.reader
            }
        }

        impl<'a, $($p: for<'x> capnp::traits::Owned<'x> + 'static),*> capnp::traits::SetPointerBuilder
            for Reader<'a, $($p),*>
        {
            fn set_pointer_builder(to: PointerBuilder<'_>, value: Self, canonicalize: bool) -> capnp::Result<()> {
                to.set_struct(&value.reader, canonicalize)
            }
        }

        impl<'a, $($p: for<'x> capnp::traits::Owned<'x> + 'static),*>
            $crate::runtime::traits::SetterInput<Owned<$($p),*>> for Reader<'a, $($p),*>
        {
            fn set_pointer_builder(to: PointerBuilder<'_>, value: Self, canonicalize: bool) -> capnp::Result<()> {
                to.set_struct(&value.reader, canonicalize)
            }
        }

        pub struct Builder<'a, $($p: for<'x> capnp::traits::Owned<'x> + 'static),*> {
            builder: StructBuilder<'a>,
            _phantom: PhantomData<($($p,)*)>,
        }

        impl<'a, $($p: for<'x> capnp::traits::Owned<'x> + 'static),*> From<StructBuilder<'a>> for Builder<'a, $($p),*> {
            fn from(builder: StructBuilder<'a>) -> Self {
                Builder { builder, _phantom: PhantomData }
            }
        }

        pub struct Paired<'a, $($p: for<'x> capnp::traits::Owned<'x> + 'static),*> {
            builder: StructBuilder<'a>,
            _phantom: PhantomData<($($p,)*)>,
        }

        impl<'a, $($p: for<'x> capnp::traits::Owned<'x> + 'static),*> From<StructBuilder<'a>> for Paired<'a, $($p),*> {
            fn from(builder: StructBuilder<'a>) -> Self {
                Paired { builder, _phantom: PhantomData }
            }
        }

        impl<'a, $($p: for<'x> capnp::traits::Owned<'x> + 'static),*> Builder<'a, $($p),*> {
            pub fn into_reader(self) -> Reader<'a, $($p),*> {
                self.builder.into_reader().into()
            }
        }

        impl<'a, $($p: for<'x> capnp::traits::Owned<'x> + 'static),*> capnp::traits::FromStructBuilder<'a>
            for Builder<'a, $($p),*>
        {
            fn new(builder: StructBuilder<'a>) -> Self {
                builder.into()
            }
        }

        impl<'a, $($p: for<'x> capnp::traits::Owned<'x> + 'static),*> capnp::traits::HasStructSize
            for Builder<'a, $($p),*>
        {
            fn struct_size() -> StructSize {
                StructSize { data: $data, pointers: $pointers }
            }
        }

        impl<'a, $($p: for<'x> capnp::traits::Owned<'x> + 'static),*> capnp::traits::FromPointerBuilder<'a>
            for Builder<'a, $($p),*>
        {
            fn init_pointer(builder: PointerBuilder<'a>, _size: u32) -> Self {
                builder.init_struct(<Self as capnp::traits::HasStructSize>::struct_size()).into()
            }

            fn get_from_pointer(builder: PointerBuilder<'a>, default: Option<&'a [capnp::Word]>) -> capnp::Result<Self> {
                Ok(builder.get_struct(<Self as capnp::traits::HasStructSize>::struct_size(), default)?.into())
            }
        }
    };
}
