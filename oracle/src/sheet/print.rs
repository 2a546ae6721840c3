//! A tree written as a sheet. Trees outside document 01's bounds are written too: the result is then a sheet that must
//! be refused.

use super::{Binding, Field, Group, Node, Scope, Sheet, Slot, Type};

pub fn print(sheet: &Sheet) -> Vec<u8> {
    let mut lines = Lines::default();
    lines.text('R', &[], &sheet.root);
    sheet.nodes.iter().for_each(|node| lines.node(node));
    lines.bytes
}

/// A letter and numbers in 21 columns each, without the byte 10.
pub fn numbers(letter: char, numbers: &[u64]) -> String {
    numbers.iter().fold(letter.to_string(), |line, number| line + &format!("{number:>21}"))
}

#[derive(Default)]
struct Lines {
    bytes: Vec<u8>,
}

impl Lines {
    fn plain(&mut self, letter: char, values: &[u64]) {
        self.bytes.extend(numbers(letter, values).bytes());
        self.bytes.push(b'\n');
    }

    fn text(&mut self, letter: char, values: &[u64], text: &str) {
        self.bytes.extend(numbers(letter, values).bytes());
        self.bytes.push(b' ');
        self.bytes.extend(text.bytes());
        self.bytes.push(b'\n');
    }

    fn node(&mut self, node: &Node) {
        let flags = [node.is_struct.into(), node.generic.into(), node.tag_count.into(), node.tag_offset.into()];
        let ids = [node.id, node.parent, node.scope_id];
        self.text('N', &[&ids[..], &flags[..]].concat(), &node.module);
        node.parameters.iter().for_each(|name| self.text('P', &[], name));
        for field in &node.fields {
            match field {
                Field::Slot(slot) => self.slot(slot),
                Field::Group(Group { id, discriminant, name }) => self.text('G', &[*id, (*discriminant).into()], name),
            }
        }
    }

    fn slot(&mut self, slot: &Slot) {
        let columns = [slot.offset.into(), slot.discriminant.into(), slot.explicit.into(), slot.option.into()];
        self.text('F', &columns, &slot.name);
        self.typ(&slot.typ);
        self.plain('V', &[slot.value.kind.into(), slot.value.bits]);
        slot.words.iter().for_each(|&word| self.plain('W', &[word]));
    }

    fn typ(&mut self, typ: &Type) {
        let kind = typ.kind().into();
        match typ {
            Type::Plain(_) | Type::AnyPointer => self.plain('T', &[kind, 0, 0, 0]),
            Type::Parameter { scope_id, index } => self.plain('T', &[kind, 1, *scope_id, (*index).into()]),
            Type::List(element) => {
                self.plain('T', &[kind, 0, 0, 0]);
                self.typ(element);
            }
            Type::Enum(id, scopes) | Type::Struct(id, scopes) | Type::Interface(id, scopes) => {
                self.plain('T', &[kind, *id, scopes.len() as u64, 0]);
                scopes.iter().for_each(|scope| self.scope(scope));
            }
        }
    }

    fn scope(&mut self, scope: &Scope) {
        let Some(bindings) = &scope.bindings else {
            return self.plain('S', &[scope.id, 0, 0]);
        };
        self.plain('S', &[scope.id, 1, bindings.len() as u64]);
        for binding in bindings {
            match binding {
                Binding::Unbound => self.plain('U', &[]),
                Binding::Type(typ) => self.typ(typ),
            }
        }
    }
}
