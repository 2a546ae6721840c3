//! What a field is: a slot of some type, or a group.
#![forbid(unsafe_code)]

/// What a field is: a slot by the kind of its type, as schema.capnp's `Type` names them, or a group.
#[derive(Clone, Copy, Debug, PartialEq, Eq, Hash)]
#[non_exhaustive]
pub enum Kind {
    /// A slot without bits.
    Void,
    /// A slot of one bit.
    Bool,
    /// A slot of 8 bits with a sign.
    Int8,
    /// A slot of 16 bits with a sign.
    Int16,
    /// A slot of 32 bits with a sign.
    Int32,
    /// A slot of 64 bits with a sign.
    Int64,
    /// A slot of 8 bits without a sign.
    Uint8,
    /// A slot of 16 bits without a sign.
    Uint16,
    /// A slot of 32 bits without a sign.
    Uint32,
    /// A slot of 64 bits without a sign.
    Uint64,
    /// A slot of 32 bits that are a float.
    Float32,
    /// A slot of 64 bits that are a float.
    Float64,
    /// A pointer to a text.
    Text,
    /// A pointer to bytes.
    Data,
    /// A pointer to a list.
    List,
    /// A slot of 16 bits that are a member of an enum.
    Enum,
    /// A pointer to a struct.
    Struct,
    /// A pointer to a capability.
    Interface,
    /// A pointer to anything, or to a type parameter's type.
    AnyPointer,
    /// Not a slot but a group, which has a node of its own.
    Group,
}

impl Kind {
    /// The kind with a number at the boundary. The library tells no number above 19, which is a group.
    pub(crate) fn of(number: u64) -> Kind {
        match number {
            0 => Kind::Void,
            1 => Kind::Bool,
            2 => Kind::Int8,
            3 => Kind::Int16,
            4 => Kind::Int32,
            5 => Kind::Int64,
            6 => Kind::Uint8,
            7 => Kind::Uint16,
            8 => Kind::Uint32,
            9 => Kind::Uint64,
            10 => Kind::Float32,
            11 => Kind::Float64,
            12 => Kind::Text,
            13 => Kind::Data,
            14 => Kind::List,
            15 => Kind::Enum,
            16 => Kind::Struct,
            17 => Kind::Interface,
            18 => Kind::AnyPointer,
            _ => Kind::Group,
        }
    }
}
