//! Sheets for requests that random ones seldom hold: chains and groups at their 16th and 17th, cycles, doubled scopes,
//! scopes off the chain, every kind of slot with every kind of default, names with accents at their bounds, and the defaults
//! with which the two profiles of setters differ.

use crate::names;
use crate::schema_capnp::field::NO_DISCRIMINANT;
use crate::sheet::{
    has_words, value_width, Binding, Field, Group, Node, Scope, Sheet, Slot, Type, Value, ENUM, FLOAT32, FLOAT64,
};

/// A sheet and what it is about.
pub struct Corner {
    pub name: String,
    pub sheet: Sheet,
}

pub fn all() -> Vec<Corner> {
    let mut corners = Vec::new();
    let mut add = |name: String, nodes: Vec<Node>| {
        corners.push(Corner { name, sheet: Sheet::of(nodes) });
    };
    for length in [1, 2, 15, 16, 17, 18] {
        add(format!("a chain of {length}"), chain(length, 0));
        add(format!("a chain of {length} that ends at a missing node"), chain(length, 77));
        add(format!("{length} groups inside each other"), groups(length, 0));
        add(format!("{length} groups inside each other, the last missing"), groups(length, 77));
    }
    for length in [1, 2, 3, 16, 17] {
        add(format!("parents in a cycle of {length}"), chain(length, 100));
        add(format!("groups in a cycle of {length}"), groups(length, 100));
    }
    for kind in 0..19 {
        add(format!("slots of kind {kind} with every default"), defaults(kind));
    }
    for (at, scopes) in brands().iter().enumerate() {
        add(format!("brand {at}"), brand(scopes));
    }
    add("parameters".to_string(), parameters());
    add("zeroing".to_string(), zeroing());
    add("nested lists".to_string(), lists());
    // Two names in a sheet, so that it is short enough for the samples.
    for (pair, at) in names::accents_at_bounds().chunks(2).zip(0..) {
        add(format!("names with accents {at}"), accents(pair, at));
    }
    add("profiles".to_string(), profiles());
    corners
}

/// A struct node without fields.
pub fn node(id: u64, parent: u64, module: &str, parameters: &[&str]) -> Node {
    Node {
        id,
        parent,
        scope_id: parent,
        is_struct: true,
        generic: !parameters.is_empty(),
        tag_count: 0,
        tag_offset: 5,
        module: module.to_string(),
        parameters: parameters.iter().map(|name| name.to_string()).collect(),
        fields: Vec::new(),
    }
}

/// A slot of this type at offset 4, its default zero and not explicit.
pub fn slot(name: &str, typ: Type) -> Slot {
    let value = Value { kind: typ.kind(), bits: 0 };
    let name = name.to_string();
    Slot {
        offset: 4,
        discriminant: NO_DISCRIMINANT,
        explicit: false,
        option: false,
        name,
        typ,
        value,
        words: Vec::new(),
    }
}

pub fn group(name: &str, id: u64) -> Group {
    Group { id, discriminant: NO_DISCRIMINANT, name: name.to_string() }
}

impl Node {
    pub fn slots(mut self, slots: impl IntoIterator<Item = Slot>) -> Node {
        self.fields.extend(slots.into_iter().map(Field::Slot));
        self
    }

    pub fn group(mut self, group: Group) -> Node {
        self.fields.push(Field::Group(group));
        self
    }
}

impl Slot {
    /// The slot with a default; an explicit one of a pointer kind has words.
    pub fn default(mut self, kind: u8, bits: u64, explicit: bool) -> Slot {
        self.value = Value { kind, bits };
        self.explicit = explicit;
        self.words = if explicit && has_words(kind) { vec![0x0706_0504_0302_0100, u64::MAX] } else { Vec::new() };
        self
    }

    pub fn option(mut self) -> Slot {
        self.option = true;
        self
    }

    pub fn tagged(mut self, discriminant: u16) -> Slot {
        self.discriminant = discriminant;
        self
    }

    pub fn at(mut self, offset: u32) -> Slot {
        self.offset = offset;
        self
    }
}

/// A scope that binds these types.
pub fn bound(id: u64, types: Vec<Type>) -> Scope {
    Scope { id, bindings: Some(types.into_iter().map(Binding::Type).collect()) }
}

fn inherits(id: u64) -> Scope {
    Scope { id, bindings: None }
}

/// Slots of one struct type and of lists of it, with each way to give its brand.
fn branded(id: u64, scopes: &[Scope]) -> Vec<Slot> {
    let typ = Type::Struct(id, scopes.to_vec());
    let kinds = [
        Type::Interface(id, scopes.to_vec()),
        Type::Enum(id, scopes.to_vec()),
        Type::List(Box::new(typ.clone())),
        Type::List(Box::new(Type::List(Box::new(Type::Interface(id, scopes.to_vec()))))),
        typ,
    ];
    kinds.into_iter().map(|typ| slot("ward", typ)).collect()
}

/// Nodes 100, 101 .. each the parent of the one before, the last with the parent `end`; slots of the first.
fn chain(length: u64, end: u64) -> Vec<Node> {
    let mut nodes: Vec<Node> = (0..length)
        .map(|at| {
            let parent = if at + 1 == length { end } else { 101 + at };
            node(100 + at, parent, &format!("m{at}"), if at % 3 == 0 { &["T", "Other"] } else { &[] })
        })
        .collect();
    let text = Type::Plain(12);
    let own = bound(100, vec![text.clone(), Type::Struct(100, Vec::new())]);
    let wrong = bound(100, vec![text.clone()]);
    let unsupported = bound(100, vec![text, Type::List(Box::new(Type::AnyPointer))]);
    let mut slots = branded(100, &[]);
    slots.extend(branded(100, &[own, inherits(103)]));
    slots.extend(branded(100, &[wrong]));
    slots.extend(branded(100, &[unsupported]));
    let far = bound(100 + length - 1, Vec::new());
    slots.extend(branded(100, &[far]));
    nodes[0] = nodes[0].clone().slots(slots);
    nodes
}

/// Nodes 100, 101 .. each with the next as a group between two slots; node 1 has the first.
fn groups(length: u64, end: u64) -> Vec<Node> {
    let first = node(1, 0, "bed", &[]).slots([slot("before", Type::Plain(7))]);
    let mut nodes = vec![if end == 100 { first } else { first.group(group("outer", 100)) }];
    for at in 0..length {
        let mut inner = node(100 + at, 1, &format!("g{at}"), &[]).slots([slot("left", Type::Plain(7))]);
        let next = if at + 1 == length { end } else { 101 + at };
        if next != 0 {
            inner = inner.group(group("inner", next));
        }
        inner.tag_count = (at % 2) as u16;
        nodes.push(inner.slots([slot("right", Type::Plain(7)), slot("other", Type::Plain(12))]));
    }
    nodes
}

/// A type of each kind.
fn of_kind(kind: u8) -> Type {
    match kind {
        14 => Type::List(Box::new(Type::Plain(2))),
        15 => Type::Enum(9, Vec::new()),
        16 => Type::Struct(9, Vec::new()),
        17 => Type::Interface(9, Vec::new()),
        18 => Type::AnyPointer,
        _ => Type::Plain(kind),
    }
}

/// Slots of one kind with a default of each kind: zero, one, the top bit and every bit; explicit or not; with option.
fn defaults(kind: u8) -> Vec<Node> {
    let mut slots = Vec::new();
    for value in 0..19 {
        let width = value_width(value);
        let all = if width == 0 { 0 } else { u64::MAX >> (64 - width) };
        let mut bits = vec![0, 1 & all, (all / 2 + 1) & all, all];
        bits.dedup();
        for bits in bits {
            for explicit in [false, true] {
                slots.push(slot("bedStatus", of_kind(kind)).default(value, bits, explicit));
            }
        }
        slots.push(slot("wardName", of_kind(kind)).default(value, 0, true).option().tagged(3));
    }
    // At most a sheet's bytes: the slots are shared by four nodes.
    let quarter = slots.len().div_ceil(4);
    let parts = slots.chunks(quarter).map(<[Slot]>::to_vec);
    let mut nodes: Vec<Node> = parts.zip(1..).map(|(slots, id)| node(id, 0, "bed", &[]).slots(slots)).collect();
    nodes.push(node(9, 0, "ward", &["T"]));
    nodes
}

/// Brands of the node 2, which has two parameters and whose parent, the node 1, has one.
fn brands() -> Vec<Vec<Scope>> {
    let text = || Type::Plain(12);
    let pair = |id| bound(id, vec![text(), Type::List(Box::new(Type::Plain(1)))]);
    let short = |id| bound(id, vec![text()]);
    let none = |id| bound(id, Vec::new());
    let bad = |id| bound(id, vec![Type::Struct(77, Vec::new()), Type::List(Box::new(Type::AnyPointer)), text()]);
    let half = Scope {
        id: 2,
        bindings: Some(vec![Binding::Unbound, Binding::Type(Type::Parameter { scope_id: 2, index: 1 })]),
    };
    vec![
        vec![],
        vec![inherits(2)],
        vec![inherits(1)],
        vec![inherits(2), inherits(1)],
        vec![pair(2)],
        vec![pair(2), short(1)],
        vec![short(1), pair(2)],
        vec![half, short(1)],
        vec![short(2)],
        vec![pair(1)],
        vec![bad(2)],
        vec![pair(2), bad(1)],
        vec![none(1), pair(2)],
        // Of two scopes with one id the later counts.
        vec![pair(2), inherits(2)],
        vec![inherits(2), pair(2)],
        vec![bad(2), pair(2)],
        vec![pair(2), bad(2)],
        // Off the chain nothing is looked at.
        vec![bad(3), pair(2), bad(77)],
        vec![bad(0)],
        // A brand inside a brand.
        vec![bound(2, vec![Type::Struct(2, vec![pair(2), inherits(1)]), Type::Interface(2, vec![half_of(2)])])],
    ]
}

/// Slots with this brand.
fn brand(scopes: &[Scope]) -> Vec<Node> {
    let slots = branded(2, scopes);
    vec![node(1, 0, "outer", &["Out"]), node(2, 1, "outer::inner", &["A", "B"]).slots(slots), node(3, 1, "off", &["C"])]
}

fn half_of(id: u64) -> Scope {
    Scope { id, bindings: Some(vec![Binding::Unbound, Binding::Unbound]) }
}

fn parameters() -> Vec<Node> {
    let parameter = |scope_id, index| Type::Parameter { scope_id, index };
    let types = [
        parameter(1, 0),
        parameter(2, 0),
        parameter(2, 1),
        parameter(2, 2),
        parameter(3, 0),
        parameter(77, 0),
        parameter(0, 65535),
        parameter(2, 65535),
        Type::AnyPointer,
        Type::List(Box::new(parameter(2, 0))),
        Type::List(Box::new(parameter(77, 9))),
        Type::List(Box::new(Type::AnyPointer)),
    ];
    let mut slots: Vec<Slot> = types.iter().map(|typ| slot("bedOwner", typ.clone())).collect();
    slots.extend(types.iter().map(|typ| slot("bedOwner", typ.clone()).option().tagged(7)));
    slots.extend(types.iter().map(|typ| slot("bedOwner", typ.clone()).default(0, 0, false)));
    let node_2 = node(2, 1, "outer::inner", &["A", "B"]).slots(slots);
    vec![node(1, 0, "outer", &["Out"]), node_2, node(3, 1, "plain", &[])]
}

/// Repeats in a group, across an inner group, and with the tag.
fn zeroing() -> Vec<Node> {
    let every = |name: &str| (0..19).map(|kind| slot(name, of_kind(kind))).collect::<Vec<Slot>>();
    let repeats = [Type::Plain(7), Type::Enum(77, Vec::new()), Type::Plain(7), Type::Plain(1), Type::Plain(1)];
    let repeats = || repeats.iter().map(|typ| slot("same", typ.clone()));
    let mut tagged = node(3, 1, "tagged", &[]).slots(repeats());
    tagged.tag_count = 2;
    tagged.tag_offset = 4;
    let mut other = node(5, 1, "other", &[]);
    other.is_struct = false;
    vec![
        node(1, 0, "bed", &[])
            .group(group("all", 2))
            .group(group("tagged", 3))
            .group(group("across", 4))
            .group(group("other", 5))
            .group(group("empty", 6))
            .group(group("missing", 77)),
        node(2, 1, "all", &[])
            .slots(every("first"))
            .slots(every("second").into_iter().map(|slot| slot.at(9)))
            .slots(every("again")),
        tagged,
        node(4, 1, "across", &[]).slots(repeats()).group(group("inner", 8)).slots(repeats()),
        other,
        node(6, 1, "empty", &[]),
        node(8, 4, "inner", &[]).slots(repeats()),
        node(9, 0, "ward", &[]),
    ]
}

/// Lists of each kind, and lists of those, down to level 16.
fn lists() -> Vec<Node> {
    let mut slots = Vec::new();
    for kind in 0..19 {
        let list = Type::List(Box::new(of_kind(kind)));
        slots.push(slot("beds", list.clone()));
        slots.push(slot("beds", Type::List(Box::new(list.clone()))).option());
        let deepest = (0..13).fold(list, |inner, _| Type::List(Box::new(inner)));
        slots.push(slot("beds", deepest).default(14, 0, true));
    }
    vec![node(1, 0, "bed", &[]).slots(slots), node(9, 0, "ward", &["T"])]
}

/// For each name a Text with a default, whose texts have the name wherever there can be one, a slot whose kind is the
/// turn's, and a group.
fn accents(names: &[String], turn: usize) -> Vec<Node> {
    let text = |name: &String| slot(name, Type::Plain(12)).default(12, 0, true).tagged(1);
    let kinds = (0..19).cycle().skip(turn * names.len());
    let by_turns = names.iter().zip(kinds).map(|(name, kind)| slot(name, of_kind(kind)));
    let bed = node(1, 0, "bed", &[]).slots(names.iter().map(text)).slots(by_turns);
    let bed = names.iter().zip(8..).fold(bed, |bed, (name, id)| bed.group(group(name, id)));
    vec![bed, node(8, 1, "bed::plan", &[]).slots(names.iter().map(text)), node(9, 1, "ward", &["T"])]
}

/// -0.0 and its neighbour, enums' defaults with and without their flag, of a node that is there and of one that is not; each
/// bare, and with a tag, option and the largest offset. The names and the enum's module are much like the line that sets a value.
fn profiles() -> Vec<Node> {
    let mut slots = Vec::new();
    for explicit in [false, true] {
        for (kind, sign) in [(FLOAT32, 1 << 31), (FLOAT64, 1 << 63)] {
            slots.extend([0, 1].map(|low| slot("value", Type::Plain(kind)).default(kind, sign | low, explicit)));
        }
        for id in [9, 77] {
            let bed_status = slot("dataFieldMask", Type::Enum(id, Vec::new()));
            slots.extend([0, 1, 65_535].map(|bits| bed_status.clone().default(ENUM, bits, explicit)));
        }
    }
    let tagged = slots.clone().into_iter().map(|slot| slot.option().tagged(0).at(u32::MAX));
    let bed = node(1, 0, "bed", &[]).slots(slots).slots(tagged);
    vec![bed, node(9, 1, "self.builder.set_data_field_mask::<u16>(4,value,2);", &[])]
}
