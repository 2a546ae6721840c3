//! Types for the slots of a random sheet.

use super::valid::Style;
use crate::random::Random;
use crate::sheet::{Binding, Node, Scope, Type};

/// How many lines a slot's type may take, roughly: nested brands would grow without bound.
const LINES: usize = 40;

pub struct Types<'a> {
    random: &'a mut Random,
    style: &'a Style,
    nodes: &'a [Node],
    lines: usize,
}

impl<'a> Types<'a> {
    pub fn new(random: &'a mut Random, style: &'a Style, nodes: &'a [Node]) -> Types<'a> {
        Types { random, style, nodes, lines: LINES }
    }

    pub fn slot_type(&mut self) -> Type {
        if self.style.deep && self.random.once_in(2) {
            let deepest = self.style.level - self.random.between(0, 1);
            return self.spine(1, deepest);
        }
        self.typ(1)
    }

    /// A type that goes down, through lists and bindings, to the level `deepest`.
    fn spine(&mut self, level: usize, deepest: usize) -> Type {
        if level >= deepest {
            return self.typ(self.style.level);
        }
        let bound = self.nodes.iter().filter(|node| !node.parameters.is_empty()).count();
        if bound == 0 || self.random.once_in(2) {
            return Type::List(Box::new(self.spine(level + 1, deepest)));
        }
        let at = self.random.between(0, bound - 1);
        let node = self.nodes.iter().filter(|node| !node.parameters.is_empty()).nth(at).expect("it was counted");
        let mut bindings = vec![Binding::Unbound; node.parameters.len()];
        let last = bindings.len() - 1;
        bindings[self.random.between(0, last)] = Binding::Type(self.spine(level + 1, deepest));
        let scopes = vec![Scope { id: node.id, bindings: Some(bindings) }];
        if self.random.once_in(5) {
            Type::Interface(node.id, scopes)
        } else {
            Type::Struct(node.id, scopes)
        }
    }

    /// Any type; at the style's deepest level, and when its lines are used up, one with nothing below it.
    fn typ(&mut self, level: usize) -> Type {
        let ends = level >= self.style.level || self.lines == 0;
        self.lines = self.lines.saturating_sub(1);
        match self.random.below(24) {
            0..=1 => Type::Plain(12),
            2 => Type::Plain(13),
            3..=4 => self.parameter(),
            5 => Type::AnyPointer,
            6..=7 => self.enumeration(level),
            8..=13 if ends => Type::Plain(self.random.below(14) as u8),
            8..=10 => self.list(level),
            11..=12 => {
                let id = self.node_id();
                Type::Struct(id, self.scopes(id, level))
            }
            13 => {
                let id = self.node_id();
                Type::Interface(id, self.scopes(id, level))
            }
            _ => Type::Plain(self.random.below(14) as u8),
        }
    }

    fn list(&mut self, level: usize) -> Type {
        loop {
            let element = self.typ(level + 1);
            if element.kind() != 18 || self.style.fault(self.random) {
                return Type::List(Box::new(element));
            }
        }
    }

    /// Enums have brands in the sheet that nobody looks at.
    fn enumeration(&mut self, level: usize) -> Type {
        let id = self.node_id();
        let branded = level < self.style.level && self.random.once_in(6);
        Type::Enum(id, if branded { self.scopes(id, level) } else { Vec::new() })
    }

    fn parameter(&mut self) -> Type {
        let node = self.random.pick(self.nodes);
        let count = node.parameters.len() as u64;
        if self.style.fault(self.random) {
            let index = *self.random.pick(&[count as u16, 0, 65_535]);
            return Type::Parameter { scope_id: *self.random.pick(&[node.id, 0, 77]), index };
        }
        if count == 0 {
            return Type::Plain(12);
        }
        Type::Parameter { scope_id: node.id, index: self.random.below(count) as u16 }
    }

    fn node_id(&mut self) -> u64 {
        if self.style.fault(self.random) {
            return *self.random.pick(&[0, 77, u64::MAX]);
        }
        self.random.pick(self.nodes).id
    }

    /// A brand of the node: for each node of its chain a scope or none; beside them scopes off the chain and doubles.
    fn scopes(&mut self, id: u64, level: usize) -> Vec<Scope> {
        let mut scopes = Vec::new();
        for (id, parameters) in self.chain(id) {
            if self.random.once_in(8) {
                scopes.push(self.any_scope(id, level));
            }
            if let Some(scope) = self.scope(id, parameters, level) {
                scopes.push(scope);
            }
        }
        if self.random.once_in(6) {
            let id = self.random.number();
            let scope = self.any_scope(id, level);
            scopes.insert(0, scope);
        }
        if scopes.len() > 1 && self.random.once_in(3) {
            scopes.rotate_left(1);
        }
        scopes
    }

    /// The ids of the node and of its parents, with their numbers of parameters, as far as they are in the sheet.
    fn chain(&self, id: u64) -> Vec<(u64, usize)> {
        let mut chain = Vec::new();
        let mut next = id;
        while let Some(node) = self.nodes.iter().find(|node| node.id == next).filter(|_| chain.len() < 16) {
            chain.push((next, node.parameters.len()));
            next = node.parent;
        }
        chain
    }

    /// A scope that fits the node, or none.
    fn scope(&mut self, id: u64, parameters: usize, level: usize) -> Option<Scope> {
        if parameters == 0 && !self.random.once_in(8) {
            return None;
        }
        let count = if self.style.fault(self.random) { self.random.between(0, parameters + 1) } else { parameters };
        match self.random.below(8) {
            0 => None,
            1 | 2 => Some(Scope { id, bindings: None }),
            _ => Some(Scope { id, bindings: Some((0..count).map(|_| self.binding(level)).collect()) }),
        }
    }

    /// A scope with any number of bindings.
    fn any_scope(&mut self, id: u64, level: usize) -> Scope {
        let count = self.random.between(0, 3);
        let bindings = (0..count).map(|_| self.binding(level)).collect();
        Scope { id, bindings: if self.random.once_in(3) { None } else { Some(bindings) } }
    }

    /// A binding of a type at `level`: its own type lies one deeper.
    fn binding(&mut self, level: usize) -> Binding {
        if level >= self.style.level || self.lines == 0 || self.random.once_in(4) {
            return Binding::Unbound;
        }
        Binding::Type(self.typ(level + 1))
    }
}
