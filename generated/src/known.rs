//! A table of the build script with the meaning of its texts, which is read from them once.

use crate::meaning::{self, Get, Has, Op};
use crate::random::Random;
use crate::slots::{Family, Group, Node, PointerSlot, Slot};
use std::ops::Range;

pub struct KnownFamily {
    pub family: &'static Family,
    pub nodes: Vec<KnownNode>,
}

pub struct KnownNode {
    pub node: &'static Node,
    pub slots: Vec<KnownSlot>,
    pub pointers: Vec<KnownPointer>,
    pub groups: Vec<KnownGroup>,
}

pub struct KnownSlot {
    pub slot: &'static Slot,
    pub set: Vec<Op>,
    pub paired: Option<Vec<Op>>,
    /// The gets of the getters, those of the reader first; a Void slot has none.
    pub gets: Vec<Get>,
    /// Whether the slot's bits are clear of its tag.
    pub is_clear: bool,
}

pub struct KnownPointer {
    pub slot: &'static PointerSlot,
    /// The lines of the setter and the initializer that have a meaning.
    pub tag: Vec<Op>,
    pub has: [Has; 2],
}

pub struct KnownGroup {
    pub group: &'static Group,
    pub zero: Vec<Op>,
    /// The places of the group's node and of those inside it, among the family's.
    pub inside: Vec<usize>,
}

fn known<T>(meaning: Option<T>, name: &str, text: &str) -> T {
    meaning.unwrap_or_else(|| panic!("a text of {name} has no meaning:\n{text}"))
}

impl KnownFamily {
    pub fn new(family: &'static Family) -> KnownFamily {
        KnownFamily { family, nodes: family.nodes.iter().map(|node| KnownNode::new(family, node)).collect() }
    }

    /// The words of data and the pointers of every record that has fewer words than the family's.
    pub fn short_sizes(&self) -> Vec<(u16, u16)> {
        let pointers = || 0..=self.family.pointers;
        (0..self.family.data).flat_map(|words| pointers().map(move |pointers| (words, pointers))).collect()
    }

    pub fn has_groups(&self) -> bool {
        self.nodes.iter().any(|node| !node.groups.is_empty())
    }
}

impl KnownNode {
    fn new(family: &'static Family, node: &'static Node) -> KnownNode {
        KnownNode {
            node,
            slots: node.slots.iter().map(KnownSlot::new).collect(),
            pointers: node.pointers.iter().map(KnownPointer::new).collect(),
            groups: node.groups.iter().map(|group| KnownGroup::new(family, group)).collect(),
        }
    }
}

impl KnownSlot {
    fn new(slot: &'static Slot) -> KnownSlot {
        let texts = slot.readers.iter().map(|getter| getter.text).chain(slot.builders.iter().map(|getter| getter.text));
        let gets = if slot.kind == 0 {
            Vec::new()
        } else {
            texts.map(|text| known(meaning::getter(text), slot.name, text)).collect()
        };
        let set = |text| known(meaning::setter(text), slot.name, text);
        let paired = slot.paired.as_ref().map(|paired| set(paired.text));
        KnownSlot { slot, set: set(slot.setter.text), paired, gets, is_clear: slot.is_clear() }
    }

    /// A value of the slot's width: its default, 0, the highest bit alone, which is a float's -0.0, or any other.
    pub fn value(&self, random: &mut Random) -> u64 {
        match (self.slot.width(), random.below(16)) {
            (0, _) => 0,
            (_, 0) => self.slot.default,
            (_, 1) => 0,
            (width, 2) => 1 << (width - 1),
            (1, _) => random.below(2),
            (width, _) => random.bits(width / 8),
        }
    }
}

impl KnownPointer {
    fn new(slot: &'static PointerSlot) -> KnownPointer {
        let has =
            [slot.has_reader.text, slot.has_builder.text].map(|text| known(meaning::haser(text), slot.name, text));
        KnownPointer { slot, tag: meaning::tag_lines(slot.setter), has }
    }
}

impl KnownGroup {
    fn new(family: &'static Family, group: &'static Group) -> KnownGroup {
        let zero = known(meaning::zeroing(group.text), group.name, group.text);
        let place = |id: u64| family.nodes.iter().position(|node| node.id == id).expect("a group's node is there");
        let mut inside = vec![place(group.id)];
        let mut at = 0;
        while at < inside.len() {
            inside.extend(family.nodes[inside[at]].groups.iter().map(|inner| place(inner.id)));
            at += 1;
        }
        KnownGroup { group, zero, inside }
    }
}

impl Slot {
    /// How many bits it has.
    pub fn width(&self) -> u32 {
        match self.kind {
            1 => 1,
            2 | 6 => 8,
            3 | 7 | 15 => 16,
            4 | 8 | 10 => 32,
            5 | 9 | 11 => 64,
            _ => 0,
        }
    }

    /// The bits of the data section that it has, and those of its tag.
    fn bits(&self) -> [Range<u32>; 2] {
        let of = |width: u32, offset: u32| width * offset..width * (offset + 1);
        [of(self.width(), self.offset), self.tag.map_or(0..0, |(offset, _)| of(16, offset))]
    }

    fn is_clear(&self) -> bool {
        let [bits, tag] = self.bits();
        bits.end <= tag.start || tag.end <= bits.start
    }

    /// Whether two data sections differ in no bit but the slot's and its tag's.
    pub fn are_others_kept(&self, before: &[u8], after: &[u8]) -> bool {
        let own = self.bits();
        let is_own = |bit: u32| own.iter().any(|bits| bits.contains(&bit));
        let mut changed = before.iter().zip(after).enumerate().filter(|(_, (before, after))| before != after);
        changed.all(|(at, (before, after))| {
            (0..8).all(|bit| (before ^ after) >> bit & 1 == 0 || is_own(at as u32 * 8 + bit))
        })
    }

    /// What a value that is set reads as: it itself, but for the two exceptions (`expected` in crates/meaning/specs).
    pub fn expected(&self, value: u64) -> u64 {
        match self.kind {
            10 if self.default == 1 << 31 => value ^ 1 << 31,
            11 if self.default == 1 << 63 => value ^ 1 << 63,
            15 if !self.explicit => value ^ self.default,
            _ => value,
        }
    }
}
