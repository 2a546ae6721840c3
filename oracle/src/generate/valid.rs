//! Trees of valid sheets. They keep to document 01's bounds; whether their requests are refused is up to the style.

use super::types::Types;
use crate::names;
use crate::random::Random;
use crate::schema_capnp::field::NO_DISCRIMINANT;
use crate::sheet::{has_words, value_width, Field, Group, Node, Sheet, Slot, Type, Value, MAX_WORDS};
use std::collections::HashSet;

/// What a random sheet is like.
pub struct Style {
    /// From how many to how many nodes.
    pub nodes: (usize, usize),
    /// From how many to how many fields in a node.
    pub fields: (usize, usize),
    /// The deepest level of a type.
    pub level: usize,
    /// Once in so many choices one is taken that leads to a refusal; 0 is never.
    pub faults: u64,
    /// The longest name.
    pub names: usize,
    /// Whether some types go straight down to the deepest level.
    pub deep: bool,
}

impl Style {
    pub fn fault(&self, random: &mut Random) -> bool {
        self.faults != 0 && random.once_in(self.faults)
    }
}

pub fn sheet(random: &mut Random, style: &Style) -> Sheet {
    let mut nodes = outlines(random, style);
    let mut groups = Groups::new(random, style, &nodes);
    let fields: Vec<Vec<Field>> = nodes.iter().map(|node| fields(random, style, &nodes, &mut groups, node)).collect();
    for (node, fields) in nodes.iter_mut().zip(fields) {
        node.fields = fields;
    }
    let length = random.between(1, 64);
    let root = if random.once_in(4) { graphic(random, length) } else { "::capnp".to_string() };
    Sheet { root, nodes }
}

/// Nodes with everything but their fields: types and groups refer to them.
fn outlines(random: &mut Random, style: &Style) -> Vec<Node> {
    let count = random.between(style.nodes.0, style.nodes.1);
    let ids = distinct_ids(random, count);
    let family = random.below(4);
    (0..count)
        .map(|at| Node {
            id: ids[at],
            parent: parent(random, style, family, &ids, at),
            scope_id: if random.once_in(3) { random.number() } else { *random.pick(&ids) },
            is_struct: !(style.fault(random) || random.once_in(6)),
            generic: random.once_in(2),
            tag_count: if random.once_in(3) { random.number() as u16 } else { 0 },
            tag_offset: offset(random),
            module: module(random, style),
            parameters: parameters(random, style),
            fields: Vec::new(),
        })
        .collect()
}

/// Distinct ids from 1: small ones, or anywhere in 64 bits, the largest included.
fn distinct_ids(random: &mut Random, count: usize) -> Vec<u64> {
    let wide = random.once_in(2);
    let mut ids = Vec::new();
    while ids.len() < count {
        let id = match random.below(12) {
            0 => u64::MAX,
            _ if wide => random.number().max(1),
            _ => 1 + random.below(3 * count as u64),
        };
        if !ids.contains(&id) {
            ids.push(id);
        }
    }
    ids
}

/// The parent of the node at `at`: its family is a forest, one long chain, any node, or none at all.
fn parent(random: &mut Random, style: &Style, family: u64, ids: &[u64], at: usize) -> u64 {
    if style.fault(random) {
        return if random.once_in(2) { *random.pick(ids) } else { random.number() };
    }
    match family {
        0 => 0,
        _ if at == 0 => 0,
        1 if at > 15 && style.faults == 0 => 0,
        1 => ids[at - 1],
        2 if random.once_in(3) => 0,
        // Below the 16th node, so that without a fault no chain is longer than 16.
        _ => ids[random.between(0, at.min(15) - 1)],
    }
}

fn parameters(random: &mut Random, style: &Style) -> Vec<String> {
    let count = match random.below(12) {
        0..=4 => 0,
        5..=7 => 1,
        8 | 9 => 2,
        10 => 3,
        _ => random.between(0, 12),
    };
    (0..count).map(|_| name(random, style)).collect()
}

/// The ids that groups may have, each used once.
struct Groups(Vec<u64>);

impl Groups {
    fn new(random: &mut Random, style: &Style, nodes: &[Node]) -> Groups {
        let mut seen = HashSet::new();
        let mut ids: Vec<u64> =
            nodes.iter().filter(|node| node.is_struct || style.faults != 0).map(|node| node.id).collect();
        if style.faults != 0 {
            ids.extend((0..2).map(|_| random.number().max(1)));
        }
        ids.retain(|&id| seen.insert(id));
        Groups(ids)
    }

    /// A node's own id and those before it lead back; without faults a group is a later node.
    fn take(&mut self, random: &mut Random, style: &Style, nodes: &[Node], node: &Node) -> Option<u64> {
        let place = |id: u64| nodes.iter().position(|candidate| candidate.id == id);
        let own = place(node.id);
        let later = |&id: &u64| style.faults != 0 || place(id) > own;
        let candidates: Vec<u64> = self.0.iter().copied().filter(later).collect();
        if candidates.is_empty() {
            return None;
        }
        let id = *random.pick(&candidates);
        self.0.retain(|&candidate| candidate != id);
        Some(id)
    }
}

fn fields(random: &mut Random, style: &Style, nodes: &[Node], groups: &mut Groups, node: &Node) -> Vec<Field> {
    let count = random.between(style.fields.0, style.fields.1);
    let mut fields = Vec::new();
    for _ in 0..count {
        let group = if random.once_in(4) { groups.take(random, style, nodes, node) } else { None };
        fields.push(match group {
            Some(id) => Field::Group(Group { id, discriminant: discriminant(random), name: field_name(random, style) }),
            None => Field::Slot(slot(random, style, nodes)),
        });
    }
    // Slots that share type and offset, for the lines that a zeroing drops.
    if random.once_in(4) {
        let slots: Vec<Field> =
            fields.iter().filter(|field| matches!(field, Field::Slot(_))).take(2).cloned().collect();
        fields.extend(slots);
    }
    fields
}

fn slot(random: &mut Random, style: &Style, nodes: &[Node]) -> Slot {
    let typ = Types::new(random, style, nodes).slot_type();
    let value = value(random, style, &typ);
    let explicit = random.once_in(2);
    let option = if style.fault(random) { true } else { takes_option(&typ) && random.once_in(4) };
    let words = if explicit && has_words(value.kind) { words(random) } else { Vec::new() };
    Slot {
        offset: offset(random),
        discriminant: discriminant(random),
        explicit,
        option,
        name: field_name(random, style),
        typ,
        value,
        words,
    }
}

fn takes_option(typ: &Type) -> bool {
    matches!(typ.kind(), 12..=14 | 16 | 18)
}

fn value(random: &mut Random, style: &Style, typ: &Type) -> Value {
    let kind = if style.fault(random) { random.below(19) as u8 } else { typ.kind() };
    let width = value_width(kind);
    let top = if width == 0 { 0 } else { u64::MAX >> (64 - width) };
    let bits = match random.below(8) {
        0..=1 => 0,
        2 => 1,
        3 => top,
        4 => top / 2 + 1,
        5 => top / 2,
        _ => random.number(),
    };
    Value { kind, bits: bits & top }
}

fn words(random: &mut Random) -> Vec<u64> {
    let count = match random.below(40) {
        0 => MAX_WORDS,
        1 => random.between(1, MAX_WORDS),
        _ => random.between(1, 3),
    };
    (0..count).map(|_| random.number()).collect()
}

/// Few different ones, so that slots share them, and the largest.
fn offset(random: &mut Random) -> u32 {
    match random.below(8) {
        0 => random.number() as u32,
        1 => u32::MAX,
        _ => random.below(6) as u32,
    }
}

fn discriminant(random: &mut Random) -> u16 {
    match random.below(4) {
        0 => random.below(5) as u16,
        1 => *random.pick(&[0, 1, 65534, 9]),
        _ => NO_DISCRIMINANT,
    }
}

/// An ASCII name.
fn name(random: &mut Random, style: &Style) -> String {
    let length = name_length(random, style);
    no_digit_first(names::random(random, length))
}

/// The name of a field: every other one has accents.
fn field_name(random: &mut Random, style: &Style) -> String {
    let length = name_length(random, style);
    let make = *random.pick(&[names::random, names::accented]);
    no_digit_first(make(random, length))
}

/// The bytes of a name, at its longest every third time.
fn name_length(random: &mut Random, style: &Style) -> usize {
    if random.once_in(3) {
        style.names
    } else {
        random.between(1, style.names)
    }
}

fn no_digit_first(name: String) -> String {
    if name.starts_with(|c: char| c.is_ascii_digit()) {
        return format!("x{}", &name[1..]);
    }
    name
}

fn module(random: &mut Random, style: &Style) -> String {
    match random.below(4) {
        0 => {
            let length = random.between(1, 2 * style.names);
            graphic(random, length)
        }
        1 => format!("crate::{}_capnp::bed", name(random, style)),
        _ => name(random, style),
    }
}

/// Any bytes 33 to 126: braces and colons too.
fn graphic(random: &mut Random, length: usize) -> String {
    (0..length).map(|_| random.between(33, 126) as u8 as char).collect()
}
