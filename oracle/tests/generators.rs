//! The generated sheets reach what they are made for: every refusal of every kind of request, and texts of each.

use oracle::answer::{text_of_field, Request};
use oracle::context::context;
use oracle::generate;
use oracle::names::accented_letters;
use oracle::paired::Apart;
use oracle::random::Random;
use oracle::sheet::{Binding, Field, Scope, Sheet, Type};
use oracle::verdict::{verdict, Verdict};
use std::collections::{BTreeMap, BTreeSet};

/// How often each kind of request was answered with a text (0) or with a refusal.
type Census = BTreeMap<(&'static str, u64), u64>;

fn count(census: &mut Census, sheet: &Sheet, name: &'static str, request: Request, fits: fn(&Field) -> bool) {
    let ctx = context(sheet);
    for node in &sheet.nodes {
        for field in node.fields.iter().filter(|field| fits(field)) {
            let number = text_of_field(&ctx, node, field, request).err().unwrap_or(0);
            *census.entry((name, number)).or_default() += 1;
        }
    }
}

#[test]
fn every_refusal_is_reached() {
    let random = &mut Random::new(31);
    let mut census = Census::new();
    let is_slot: fn(&Field) -> bool = |field| matches!(field, Field::Slot(_));
    let is_group: fn(&Field) -> bool = |field| matches!(field, Field::Group(_));
    for turn in 0..4000 {
        let (sheet, _) = generate::sheet(random, turn);
        count(&mut census, &sheet, "owned", Request::Type { leaf: 4 }, is_slot);
        count(&mut census, &sheet, "client", Request::Type { leaf: 5 }, is_slot);
        count(&mut census, &sheet, "getter", Request::Getter { reader: true, function: true }, is_slot);
        count(&mut census, &sheet, "setter", Request::Setter, is_slot);
        count(&mut census, &sheet, "paired setter", Request::PairedSetter, is_slot);
        count(&mut census, &sheet, "haser", Request::Haser { reader: false }, is_slot);
        count(&mut census, &sheet, "zeroing", Request::Zero, is_group);
    }
    println!("{census:#?}");
    let expected: [(&str, &[u64]); 7] = [
        ("owned", &[0, 4, 5, 6, 8, 13]),
        ("client", &[0, 4, 5, 6, 7, 8, 13]),
        ("getter", &[0, 4, 5, 6, 8, 9, 10, 13]),
        ("setter", &[0, 4, 5, 6, 8, 11, 12, 13]),
        ("paired setter", &[0, 4, 5, 6, 8, 11, 12, 13]),
        ("haser", &[0]),
        ("zeroing", &[0, 4, 5, 14]),
    ];
    for (name, numbers) in expected {
        for number in numbers {
            assert!(census.get(&(name, *number)).is_some_and(|&count| count >= 5), "{name} {number}");
        }
    }
}

/// The defaults with which the two profiles of setters differ, and every verdict.
#[test]
fn both_profiles_and_every_verdict_are_reached() {
    let random = &mut Random::new(33);
    let (mut aparts, mut verdicts) = (Vec::new(), Vec::new());
    for turn in 0..4000 {
        let (sheet, _) = generate::sheet(random, turn);
        let ctx = context(&sheet);
        for node in &sheet.nodes {
            aparts.extend(node.fields.iter().filter_map(Apart::of_field));
            verdicts.extend(node.fields.iter().filter_map(|field| verdict(&ctx, node, field)));
        }
    }
    for apart in Apart::ALL {
        let count = aparts.iter().filter(|&&other| other == apart).count();
        assert!(count >= 50, "{apart:?} {count} times");
    }
    for verdict in Verdict::ALL {
        let count = verdicts.iter().filter(|&&other| other == verdict).count();
        assert!(count >= 50, "{verdict:?} {count} times");
    }
}

/// What a valid sheet can be rich in.
#[derive(Default)]
struct Seen {
    type_kinds: BTreeSet<u8>,
    value_kinds: BTreeSet<u8>,
    level: usize,
    unbound: bool,
    inherits: bool,
    doubled: bool,
    words: usize,
    nodes: usize,
    name: usize,
    accents: BTreeSet<char>,
    module: usize,
    root: usize,
}

impl Seen {
    fn sheet(&mut self, sheet: &Sheet) {
        self.nodes = self.nodes.max(sheet.nodes.len());
        self.root = self.root.max(sheet.root.len());
        for node in &sheet.nodes {
            self.module = self.module.max(node.module.len());
            for field in &node.fields {
                self.name = self.name.max(field.name().len());
                self.accents.extend(field.name().chars().filter(|c| !c.is_ascii()));
                if let Field::Slot(slot) = field {
                    self.value_kinds.insert(slot.value.kind);
                    self.words = self.words.max(slot.words.len());
                    self.typ(&slot.typ, 1);
                }
            }
        }
    }

    fn typ(&mut self, typ: &Type, level: usize) {
        self.level = self.level.max(level);
        self.type_kinds.insert(typ.kind());
        match typ {
            Type::List(element) => self.typ(element, level + 1),
            Type::Enum(_, scopes) | Type::Struct(_, scopes) | Type::Interface(_, scopes) => self.scopes(scopes, level),
            _ => {}
        }
    }

    fn scopes(&mut self, scopes: &[Scope], level: usize) {
        let ids: BTreeSet<u64> = scopes.iter().map(|scope| scope.id).collect();
        self.doubled |= ids.len() < scopes.len();
        for scope in scopes {
            self.inherits |= scope.bindings.is_none();
            for binding in scope.bindings.iter().flatten() {
                match binding {
                    Binding::Unbound => self.unbound = true,
                    Binding::Type(typ) => self.typ(typ, level + 1),
                }
            }
        }
    }
}

#[test]
fn valid_sheets_are_rich_in_everything() {
    let random = &mut Random::new(32);
    let mut seen = Seen::default();
    for turn in 0..4000 {
        seen.sheet(&generate::sheet(random, turn).0);
    }
    assert_eq!((seen.type_kinds.len(), seen.value_kinds.len()), (19, 19));
    assert!(seen.unbound && seen.inherits && seen.doubled);
    assert_eq!((seen.level, seen.words, seen.nodes), (16, 255, 64));
    assert_eq!((seen.name, seen.module, seen.root), (64, 128, 64));
    assert!(seen.accents.into_iter().eq(accented_letters()));
}
