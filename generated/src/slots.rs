//! The tables that the build script writes: what a sheet says of each field, the accessors' texts, and functions that
//! call what was compiled of them.

use capnp::private::layout::{StructBuilder, StructReader};

/// A text and what was compiled of it.
pub struct Accessor<F> {
    pub text: &'static str,
    pub run: F,
}

type OfReader<T> = Accessor<fn(StructReader<'_>) -> T>;
type OfBuilder<T> = Accessor<fn(StructBuilder<'_>) -> T>;
/// Gives the bits that it wrote, which are others where an enum has no such value.
type Setter = Accessor<fn(StructBuilder<'_>, u64) -> u64>;

/// A Void, Bool, numeric or enum slot. Values and defaults are bits. Of two getters the first is the function.
pub struct Slot {
    pub name: &'static str,
    pub kind: u64,
    pub offset: u32,
    /// The tag's offset and the slot's number in its union.
    pub tag: Option<(u32, u16)>,
    pub default: u64,
    pub explicit: bool,
    pub readers: [OfReader<u64>; 2],
    pub builders: [OfBuilder<u64>; 2],
    pub setter: Setter,
    /// The setter with the getters' mask; a Void slot has none of its own.
    pub paired: Option<Setter>,
}

/// A pointer slot. Values are shown as text.
pub struct PointerSlot {
    pub name: &'static str,
    pub kind: u64,
    pub offset: u32,
    pub tag: Option<(u32, u16)>,
    pub readers: [OfReader<String>; 2],
    pub builders: [OfBuilder<String>; 2],
    pub setter: &'static str,
    /// Sets it to the value of a seed.
    pub set: fn(StructBuilder<'_>, u64) -> String,
    /// Calls its initializer with a size.
    pub init: Option<fn(StructBuilder<'_>, u32) -> String>,
    pub has_reader: OfReader<bool>,
    pub has_builder: OfBuilder<bool>,
    /// The default, or what a slot without one shows where its pointer is null.
    pub default: fn() -> String,
}

/// A group that is zeroed.
pub struct Group {
    pub name: &'static str,
    pub id: u64,
    pub text: &'static str,
    pub zero: fn(StructBuilder<'_>),
}

/// A struct, or a group inside it; `path` has the names of the groups that lead to it, each with a dot behind it.
pub struct Node {
    pub id: u64,
    pub path: &'static str,
    pub slots: &'static [Slot],
    pub pointers: &'static [PointerSlot],
    pub groups: &'static [Group],
}

/// A struct with its groups, and the words of data and the pointers of its records.
pub struct Family {
    pub name: &'static str,
    pub data: u16,
    pub pointers: u16,
    pub nodes: &'static [Node],
}
