//! Types whose texts make a reader go over the same rows again.

use super::super::corners::{node, slot, Corner};
use super::{binds, inherits, long_scopes, unbound};
use crate::sheet::{Binding, Node, Scope, Sheet, Slot, Type, MAX_LEVEL, MAX_NODES};

/// Every so many parameters of a node the index has a position: the last of so many stands furthest behind one.
const MARK_EVERY: usize = 16;

/// Types nested 16 deep: their size is bounded by the levels.
pub fn nested() -> Vec<Corner> {
    let mut corners = Vec::new();
    let mut add = |name: String, nodes: Vec<Node>| corners.push(Corner { name, sheet: Sheet::of(nodes) });
    for length in [1, 2, 3] {
        add(format!("types nested 16 deep over parents in a cycle of {length}"), nested_over_cycle(length));
    }
    add("types nested 16 deep over a chain of 16".to_string(), nested_over_chain());
    corners
}

/// Struct types inside each other, each bound by the scopes of every node given.
fn nested_type(ids: &[u64], levels: usize) -> Type {
    let Some(inner) = levels.checked_sub(1).filter(|&levels| levels > 0) else {
        return Type::Struct(ids[0], Vec::new());
    };
    // One scope goes on, the others bind a plain type: the sheet grows with the levels and not beyond.
    let deeper = binds(ids[0], vec![nested_type(ids, inner)]);
    let plain = ids[1..].iter().map(|&id| binds(id, vec![Type::Plain(12)]));
    Type::Struct(ids[0], std::iter::once(deeper).chain(plain).collect())
}

/// Slots whose brand goes 16 deep, over parents that lead back to the first.
fn nested_over_cycle(length: u64) -> Vec<Node> {
    let ids: Vec<u64> = (1..=length).collect();
    let slots: Vec<Slot> = (0..8).map(|_| slot("ward", nested_type(&ids, MAX_LEVEL))).collect();
    let parent = |id: u64| if id == length { 1 } else { id + 1 };
    let mut nodes: Vec<Node> = ids.iter().map(|&id| node(id, parent(id), "bed", &["T"])).collect();
    nodes[0] = nodes[0].clone().slots(slots);
    nodes
}

fn nested_over_chain() -> Vec<Node> {
    let ids: Vec<u64> = (1..=16).collect();
    with_first(chain_of_16(), slot("ward", nested_type(&ids, MAX_LEVEL)))
}

/// The nodes with one more slot in the first of them.
fn with_first(mut nodes: Vec<Node>, slot: Slot) -> Vec<Node> {
    nodes[0] = nodes[0].clone().slots([slot]);
    nodes
}

/// A node with so many parameters.
fn with_parameters(id: u64, parent: u64, count: usize) -> Node {
    let mut node = node(id, parent, "bed", &[]);
    node.parameters = vec!["T".to_string(); count];
    node
}

/// A brand bound by so many types of a node that has twice as many parameters: its texts have megabytes.
fn parameters_under(typ: Type, count: usize) -> Vec<Node> {
    let bound = slot("ward", Type::Struct(2, vec![binds(2, vec![typ; count])]));
    vec![with_parameters(1, 0, count * 2), with_parameters(2, 0, count).slots([bound])]
}

pub fn parameters_unbound(count: usize) -> Vec<Node> {
    parameters_under(Type::Struct(1, Vec::new()), count)
}

pub fn parameters_inherited(count: usize) -> Vec<Node> {
    parameters_under(Type::Struct(1, vec![inherits(1)]), count)
}

/// A brand whose own node has a binding too many, and whose parent is bound by so many types: the Rust meets the refusal
/// before it looks at them.
fn refused_before(types: Vec<Type>) -> Vec<Node> {
    let count = types.len();
    let typ = Type::Struct(2, vec![unbound(2, 1), binds(3, types)]);
    vec![
        with_parameters(1, 0, count * 20),
        node(2, 3, "ward", &[]).slots([slot("ward", typ)]),
        with_parameters(3, 0, count),
    ]
}

pub fn refused_before_unbound(count: usize) -> Vec<Node> {
    refused_before(vec![Type::Struct(1, Vec::new()); count])
}

pub fn refused_before_inherited(count: usize) -> Vec<Node> {
    refused_before(vec![Type::Struct(1, vec![inherits(1)]); count])
}

pub fn doubled_scopes(count: usize) -> Vec<Node> {
    let scopes = vec![binds(1, vec![Type::Plain(12)]); count];
    vec![with_parameters(1, 0, 1).slots([slot("ward", Type::Struct(1, scopes))])]
}

pub fn scopes_off_chain(count: usize) -> Vec<Node> {
    let scopes = (0..count as u64).map(|id| inherits(100 + id)).collect();
    vec![with_parameters(1, 0, 1).slots([slot("ward", Type::Struct(1, scopes))])]
}

pub fn wide_bindings(count: usize) -> Vec<Node> {
    let types = vec![Type::List(Box::new(Type::Plain(12))); count];
    vec![with_parameters(1, 0, count).slots([slot("ward", Type::Struct(1, vec![binds(1, types)]))])]
}

pub fn chain_of_64(count: usize) -> Vec<Node> {
    let last = MAX_NODES as u64;
    let mut nodes: Vec<Node> =
        (1..=last).map(|id| node(id, if id == last { 0 } else { id + 1 }, "bed", &["T"])).collect();
    // From the 49th node on a chain has at most 16 nodes.
    let slots = (0..count).map(|at| slot("ward", Type::Struct(40 + at as u64 % 25, Vec::new())));
    nodes[0] = nodes[0].clone().slots(slots);
    nodes
}

/// The chain of nodes 1 to 16, each with a parameter: 1 is the innermost.
fn chain_of_16() -> Vec<Node> {
    (1..=16).map(|id| node(id, if id == 16 { 0 } else { id + 1 }, "bed", &["T"])).collect()
}

/// Fifteen brands in each other over a chain of 16 nodes, bound by the outermost, each with a last scope off the chain; the
/// innermost type is an enum whose scope, which nothing looks at, has so many U lines.
pub fn nest(count: usize) -> Vec<Node> {
    let innermost = Type::Enum(1, vec![unbound(1, count)]);
    let typ = (0..15).fold(innermost, |inner, _| Type::Struct(1, vec![binds(16, vec![inner]), inherits(99)]));
    with_first(chain_of_16(), slot("ward", typ))
}

/// So many brands in each other, each with a binding after the one that goes on and with a last scope off the chain, so that
/// what is nested is passed over twice on each level.
fn nest_around(innermost: Type, levels: usize) -> Type {
    (0..levels).fold(innermost, |inner, _| {
        let bindings = vec![Binding::Type(inner), Binding::Unbound];
        Type::Struct(1, vec![Scope { id: 1, bindings: Some(bindings) }, inherits(99)])
    })
}

/// Fifteen such brands around an enum with so many scopes, which nothing looks at.
pub fn nest_of_scopes(count: usize) -> Vec<Node> {
    let typ = nest_around(Type::Enum(1, long_scopes(count)), 15);
    vec![with_parameters(1, 0, 2).slots([slot("ward", typ)])]
}

/// The same with scopes that bind one parameter each, to nothing.
pub fn nest_of_binds(count: usize) -> Vec<Node> {
    let typ = nest_around(Type::Enum(1, vec![unbound(u64::MAX, 1); count]), 15);
    vec![with_parameters(1, 0, 2).slots([slot("ward", typ)])]
}

/// Fifteen such brands around a struct with so many scopes that bind three parameters each, to nothing: they are looked at too.
pub fn nest_around_struct(count: usize) -> Vec<Node> {
    let innermost = Type::Struct(1, vec![unbound(u64::MAX, 3); count]);
    vec![with_parameters(1, 0, 2).slots([slot("ward", nest_around(innermost, 15))])]
}

/// The first of these behind another field, the outermost brand with so many unbound parameters that the field's texts have more
/// than 32,768 bytes.
pub fn nest_of_scopes_long(count: usize) -> Vec<Node> {
    let mut bindings = vec![Binding::Unbound; 320];
    bindings[0] = Binding::Type(nest_around(Type::Enum(1, long_scopes(count)), 14));
    let typ = Type::Struct(2, vec![Scope { id: 2, bindings: Some(bindings) }, inherits(99)]);
    let slots = [slot("first", Type::Plain(1)), slot("ward", typ)];
    vec![with_parameters(1, 0, 2).slots(slots), with_parameters(2, 0, 320)]
}

/// So many bindings, each the last of some twenty times as many parameters of another node; the last of 16, so that it stands
/// furthest from the position that the index has.
pub fn far(count: usize) -> Vec<Node> {
    let parameters = (count * 22).div_ceil(MARK_EVERY) * MARK_EVERY;
    let last = Type::Parameter { scope_id: 1, index: parameters as u16 - 1 };
    let typ = Type::Struct(2, vec![binds(2, vec![last; count])]);
    vec![with_parameters(1, 0, parameters), with_parameters(2, 0, count).slots([slot("ward", typ)])]
}

/// So many bindings, each the last of 64 parameters, behind 63 names as long as a name can be: 15 of them stand between it and
/// the position that the index has.
fn far_behind(last_name: &str, count: usize) -> Vec<Node> {
    let before = 4 * MARK_EVERY - 1;
    let mut named = node(1, 0, "bed", &[]);
    named.parameters = vec!["T".repeat(64); before];
    named.parameters.push(last_name.to_string());
    let last = Type::Parameter { scope_id: 1, index: before as u16 };
    let typ = Type::Struct(2, vec![binds(2, vec![last; count])]);
    vec![named, with_parameters(2, 0, count).slots([slot("first", Type::Plain(1)), slot("ward", typ)])]
}

pub fn far_behind_long_names(count: usize) -> Vec<Node> {
    far_behind("T", count)
}

/// The same, with texts of more than 32,768 bytes for the field.
pub fn far_behind_long_names_long(count: usize) -> Vec<Node> {
    far_behind("TransportOrder", count)
}

pub fn scopes_off_chain_of_16(count: usize) -> Vec<Node> {
    let scopes = (0..count as u64).map(|id| inherits(100 + id)).collect();
    with_first(chain_of_16(), slot("ward", Type::Struct(1, scopes)))
}

pub fn brands_over_chain_of_16(count: usize) -> Vec<Node> {
    let brands = vec![Type::Struct(1, Vec::new()); count];
    let mut nodes = chain_of_16();
    nodes.push(with_parameters(17, 0, count).slots([slot("ward", Type::Struct(17, vec![binds(17, brands)]))]));
    nodes
}

/// Brands over a chain of 16 nodes without parameters, which stand last in the sheet.
pub fn brands_over_last_nodes(count: usize) -> Vec<Node> {
    let brands = vec![Type::Struct(49, Vec::new()); count];
    let mut nodes: Vec<Node> =
        (1..=64).map(|id| node(id, if id < 49 || id == 64 { 0 } else { id + 1 }, "b", &[])).collect();
    nodes[0].parameters = vec!["T".to_string(); count];
    with_first(nodes, slot("ward", Type::Struct(1, vec![binds(1, brands)])))
}

/// One node with so many parameters, and no field.
pub fn parameters(count: usize) -> Vec<Node> {
    vec![with_parameters(1, 0, count)]
}

/// Nodes whose rows are as long as they can be.
pub fn long_nodes() -> Vec<Node> {
    let long = |id: u64| {
        let mut node = node(u64::MAX - id, u64::MAX, &"b".repeat(128), &[]);
        (node.tag_count, node.tag_offset) = (u16::MAX, u32::MAX);
        node
    };
    (0..64).map(long).collect()
}
