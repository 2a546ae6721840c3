//! `Type`.

pub use self::Which::*;
use crate::sheet;
use crate::standins::Result;

#[derive(Clone, Copy)]
pub struct Reader<'a>(pub &'a sheet::Type);

pub enum Which<'a> {
    Void(()),
    Bool(()),
    Int8(()),
    Int16(()),
    Int32(()),
    Int64(()),
    Uint8(()),
    Uint16(()),
    Uint32(()),
    Uint64(()),
    Float32(()),
    Float64(()),
    Text(()),
    Data(()),
    List(list::Reader<'a>),
    Enum(enum_::Reader),
    Struct(branded::Reader<'a>),
    Interface(branded::Reader<'a>),
    AnyPointer(any_pointer::Reader<'a>),
}

impl<'a> Reader<'a> {
    pub fn which(&self) -> Result<Which<'a>> {
        Ok(match self.0 {
            sheet::Type::Plain(0) => Void(()),
            sheet::Type::Plain(1) => Bool(()),
            sheet::Type::Plain(2) => Int8(()),
            sheet::Type::Plain(3) => Int16(()),
            sheet::Type::Plain(4) => Int32(()),
            sheet::Type::Plain(5) => Int64(()),
            sheet::Type::Plain(6) => Uint8(()),
            sheet::Type::Plain(7) => Uint16(()),
            sheet::Type::Plain(8) => Uint32(()),
            sheet::Type::Plain(9) => Uint64(()),
            sheet::Type::Plain(10) => Float32(()),
            sheet::Type::Plain(11) => Float64(()),
            sheet::Type::Plain(12) => Text(()),
            sheet::Type::Plain(13) => Data(()),
            sheet::Type::Plain(kind) => panic!("kind {kind} is not plain"),
            sheet::Type::List(element) => List(list::Reader(element)),
            sheet::Type::Enum(id, _) => Enum(enum_::Reader(*id)),
            sheet::Type::Struct(id, scopes) => Struct(branded::Reader(*id, scopes)),
            sheet::Type::Interface(id, scopes) => Interface(branded::Reader(*id, scopes)),
            sheet::Type::AnyPointer | sheet::Type::Parameter { .. } => AnyPointer(any_pointer::Reader(self.0)),
        })
    }
}

pub mod list {
    use crate::sheet::Type;
    use crate::standins::schema_capnp::type_;
    use crate::standins::Result;

    #[derive(Clone, Copy)]
    pub struct Reader<'a>(pub &'a Type);

    impl<'a> Reader<'a> {
        pub fn get_element_type(&self) -> Result<type_::Reader<'a>> {
            Ok(type_::Reader(self.0))
        }
    }
}

pub mod enum_ {
    /// An enum's brand is never asked for.
    #[derive(Clone, Copy)]
    pub struct Reader(pub u64);

    impl Reader {
        pub fn get_type_id(&self) -> u64 {
            self.0
        }
    }
}

/// A struct or an interface.
pub mod branded {
    use crate::sheet::Scope;
    use crate::standins::schema_capnp::brand;
    use crate::standins::Result;

    #[derive(Clone, Copy)]
    pub struct Reader<'a>(pub u64, pub &'a [Scope]);

    impl<'a> Reader<'a> {
        pub fn get_type_id(&self) -> u64 {
            self.0
        }

        pub fn get_brand(&self) -> Result<brand::Reader<'a>> {
            Ok(brand::Reader::new(self.1))
        }
    }
}

pub mod any_pointer {
    pub use self::Which::{Parameter, Unconstrained};
    use crate::sheet::Type;
    use crate::standins::Result;

    #[derive(Clone, Copy)]
    pub struct Reader<'a>(pub &'a Type);

    pub enum Which {
        Unconstrained(()),
        Parameter(parameter::Reader),
    }

    impl Reader<'_> {
        pub fn which(&self) -> Result<Which> {
            Ok(match *self.0 {
                Type::Parameter { scope_id, index } => Parameter(parameter::Reader { scope_id, index }),
                _ => Unconstrained(()),
            })
        }
    }

    pub mod parameter {
        #[derive(Clone, Copy)]
        pub struct Reader {
            pub scope_id: u64,
            pub index: u16,
        }

        impl Reader {
            pub fn get_scope_id(&self) -> u64 {
                self.scope_id
            }

            pub fn get_parameter_index(&self) -> u16 {
                self.index
            }
        }
    }
}
