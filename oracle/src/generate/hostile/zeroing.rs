//! Groups whose zeroing makes a reader go over the same rows again.

use super::super::corners::{group, node, slot};
use super::{long_scopes, unbound};
use crate::sheet::{Node, Slot, Type};

pub fn group_lines(count: usize) -> Vec<Node> {
    vec![(0..count as u64).fold(node(1, 0, "bed", &[]), |node, id| node.group(group("g", 10 + id)))]
}

pub fn zeroed_slots(count: usize) -> Vec<Node> {
    let slots = (0..count).map(|at| slot("s", Type::Plain(1 + at as u8 % 12)).at(at as u32 / 12));
    below_a_group(slots)
}

fn below_a_group(slots: impl IntoIterator<Item = Slot>) -> Vec<Node> {
    vec![node(1, 0, "bed", &[]).group(group("place", 2)), node(2, 1, "place", &[]).slots(slots)]
}

/// Slots whose lines all have one place in the table of `zeroing`, which has 307 and looks at the low 16 bits of an offset.
fn slots_of_one_place(count: usize) -> impl Iterator<Item = Slot> {
    (0..count as u32).map(|at| slot("s", Type::Plain(7)).at(at % 213 * 307 + at / 213 * 65536))
}

pub fn one_place(count: usize) -> Vec<Node> {
    below_a_group(slots_of_one_place(count))
}

pub fn one_place_cycle(count: usize) -> Vec<Node> {
    in_itself(slots_of_one_place(count))
}

pub fn zeroed_cycle(count: usize) -> Vec<Node> {
    in_itself((0..count).map(|at| slot("s", Type::Plain(7)).at(at as u32)))
}

/// Slots of a group that is in itself: the Rust zeroes all of them on each of 16 levels, before the 17th is refused.
fn in_itself(slots: impl IntoIterator<Item = Slot>) -> Vec<Node> {
    vec![node(1, 0, "bed", &[]).slots(slots).group(group("self", 1))]
}

/// A slot with a hundred times as many U lines, then so many slots whose lines have one place.
fn repeating(count: usize) -> Vec<Slot> {
    let first = slot("s", Type::Enum(1, vec![unbound(1, count * 100)]));
    std::iter::once(first).chain(slots_of_one_place(count)).collect()
}

pub fn repeats(count: usize) -> Vec<Node> {
    below_a_group(repeating(count))
}

pub fn groups_above_repeats(count: usize) -> Vec<Node> {
    let above = (1..=16).map(|id| node(id, 0, "bed", &[]).group(group("place", id + 1)));
    above.chain([node(17, 0, "place", &[]).slots(repeating(count))]).collect()
}

pub fn unbound_in_itself(count: usize) -> Vec<Node> {
    in_itself([slot("s", Type::Enum(1, vec![unbound(1, count)]))])
}

pub fn scopes_in_itself(count: usize) -> Vec<Node> {
    in_itself([slot("s", Type::Enum(1, long_scopes(count)))])
}

/// W rows of defaults that are not of their slots' type, so that the slots' other texts are refused.
pub fn words_in_itself(count: usize) -> Vec<Node> {
    let words = vec![u64::MAX; count];
    let with_words = |words: &[u64]| {
        let mut slot = slot("s", Type::Plain(0)).default(12, 0, true);
        slot.words = words.to_vec();
        slot
    };
    in_itself(words.chunks(255).map(with_words))
}

/// Slots without a line, whose rows are as long as they can be.
pub fn void_in_itself(count: usize) -> Vec<Node> {
    in_itself((0..count).map(|_| slot(&"s".repeat(64), Type::Plain(0)).at(u32::MAX)))
}
