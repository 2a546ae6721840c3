//! Schema sheets: the tree of a sheet, read from bytes by `read` and written by `print`. Made from document 01 and the requests
//! N2 and N5 alone, apart from the Rattle code, so that the two can be held against each other.

pub mod print;
pub mod read;

pub const MAX_BYTES: usize = 65_536;
pub const MAX_NODES: usize = 64;
pub const MAX_WORDS: usize = 255;
pub const MAX_LEVEL: usize = 16;

/// Variants of schema.capnp's `Type` and `Value` that are told apart by name.
pub const FLOAT32: u8 = 10;
pub const FLOAT64: u8 = 11;
pub const ENUM: u8 = 15;

/// An admitted sheet.
#[derive(Clone, Debug, PartialEq)]
pub struct Sheet {
    pub root: String,
    pub nodes: Vec<Node>,
}

/// An N line, its P lines, its F and G lines.
#[derive(Clone, Debug, PartialEq)]
pub struct Node {
    pub id: u64,
    /// What `node_parents` gives; 0 is none.
    pub parent: u64,
    pub scope_id: u64,
    pub is_struct: bool,
    pub generic: bool,
    pub tag_count: u16,
    pub tag_offset: u32,
    pub module: String,
    pub parameters: Vec<String>,
    pub fields: Vec<Field>,
}

#[derive(Clone, Debug, PartialEq)]
pub enum Field {
    Slot(Slot),
    Group(Group),
}

/// An F line, its type, its V line and its words.
#[derive(Clone, Debug, PartialEq)]
pub struct Slot {
    pub offset: u32,
    pub discriminant: u16,
    pub explicit: bool,
    pub option: bool,
    pub name: String,
    pub typ: Type,
    pub value: Value,
    pub words: Vec<u64>,
}

/// A G line.
#[derive(Clone, Debug, PartialEq)]
pub struct Group {
    pub id: u64,
    pub discriminant: u16,
    pub name: String,
}

/// A V line; `kind` is a variant of schema.capnp's `Value`.
#[derive(Clone, Copy, Debug, PartialEq)]
pub struct Value {
    pub kind: u8,
    pub bits: u64,
}

/// A T line and the lines below it.
#[derive(Clone, Debug, PartialEq)]
pub enum Type {
    /// Kinds 0 to 13: Void to Data.
    Plain(u8),
    List(Box<Type>),
    Enum(u64, Vec<Scope>),
    Struct(u64, Vec<Scope>),
    Interface(u64, Vec<Scope>),
    AnyPointer,
    Parameter {
        scope_id: u64,
        index: u16,
    },
}

/// An S line and its bindings; none where it inherits.
#[derive(Clone, Debug, PartialEq)]
pub struct Scope {
    pub id: u64,
    pub bindings: Option<Vec<Binding>>,
}

#[derive(Clone, Debug, PartialEq)]
pub enum Binding {
    Unbound,
    Type(Type),
}

impl Sheet {
    /// The sheet of these nodes with capnpc's own root.
    pub fn of(nodes: Vec<Node>) -> Sheet {
        Sheet { root: "::capnp".to_string(), nodes }
    }
}

impl Field {
    pub fn name(&self) -> &str {
        match self {
            Field::Slot(slot) => &slot.name,
            Field::Group(group) => &group.name,
        }
    }
}

impl Type {
    /// The variant of schema.capnp's `Type`.
    pub fn kind(&self) -> u8 {
        match self {
            Type::Plain(kind) => *kind,
            Type::List(_) => 14,
            Type::Enum(..) => 15,
            Type::Struct(..) => 16,
            Type::Interface(..) => 17,
            Type::AnyPointer | Type::Parameter { .. } => 18,
        }
    }
}

/// How many bits a V line of this kind has: none but for Bool, numbers and Enum.
pub fn value_width(kind: u8) -> u32 {
    match kind {
        1 => 1,
        2 | 6 => 8,
        3 | 7 | 15 => 16,
        4 | 8 | 10 => 32,
        5 | 9 | 11 => 64,
        _ => 0,
    }
}

/// Whether an explicit default of this kind comes with its words.
pub fn has_words(kind: u8) -> bool {
    matches!(kind, 12 | 13 | 14 | 16)
}
