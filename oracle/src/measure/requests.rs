//! Requests as measured cases: every kind of slot on a small sheet, and what the last field of any sheet takes.

use super::sheets::group_sheet;
use super::{discard, Round, Side};
use crate::answer::{answer, text_of_field, Request, State};
use crate::boundary;
use crate::context::context;
use crate::generate::corners::{node, slot};
use crate::sheet::print::print;
use crate::sheet::read::read;
use crate::sheet::{Binding, Field, Scope, Sheet, Slot, Type};
use std::hint::black_box;

/// The room for an answer.
const BUFFER: usize = 65_536;

/// A field by its node's id and its place there.
type FieldAt = (u64, usize);

/// The first field of node 1.
const FIRST: FieldAt = (1, 0);

const TYPE: Request = Request::Type { leaf: 4 };
const GETTER: Request = Request::Getter { reader: true, function: false };
const HASER: Request = Request::Haser { reader: true };

/// Requests of a slot by the names of their cases.
const REQUESTS: [(&str, Request); 8] = [
    ("type-owned", TYPE),
    ("type-reader", Request::Type { leaf: 0 }),
    ("getter-reader", GETTER),
    ("getter-builder", Request::Getter { reader: false, function: true }),
    ("setter", Request::Setter),
    ("paired-setter", Request::PairedSetter),
    ("haser-reader", HASER),
    ("haser-builder", Request::Haser { reader: false }),
];

/// What makes a slot.
type Maker = fn() -> Slot;

/// Slots by the names of their cases.
const SLOTS: [(&str, Maker); 9] = [
    ("bool", || slot("isFree", Type::Plain(1)).default(1, 1, true)),
    ("int8", || slot("rankInWard", Type::Plain(2)).default(2, 251, true)),
    ("float64", || slot("weight", Type::Plain(11)).default(11, 1.5f64.to_bits(), true).tagged(3)),
    ("enum", || slot("bedStatus", Type::Enum(2, Vec::new())).default(15, 2, true)),
    ("text", || slot("wardName", Type::Plain(12)).default(12, 0, true).option()),
    ("list", || slot("beds", Type::List(Box::new(Type::Struct(3, Vec::new()))))),
    ("struct", || slot("ward", Type::Struct(3, vec![bound()]))),
    ("interface", || slot("planner", Type::Interface(3, vec![Scope { id: 3, bindings: None }]))),
    ("parameter", || slot("owner", Type::Parameter { scope_id: 3, index: 1 })),
];

fn bound() -> Scope {
    let list = Type::List(Box::new(Type::Plain(12)));
    Scope { id: 3, bindings: Some(vec![Binding::Unbound, Binding::Type(list)]) }
}

/// A sheet of four nodes; the slot is the first field of node 1.
fn slot_sheet(slot: Slot) -> Sheet {
    let nodes = vec![
        node(4, 0, "crate::ward_capnp", &[]),
        node(2, 4, "crate::ward_capnp::Status", &[]),
        node(3, 4, "crate::ward_capnp::ward", &["Bed", "Place"]),
        node(1, 4, "crate::ward_capnp::bed", &[]).slots([slot]),
    ];
    Sheet::of(nodes)
}

/// Each request on each slot, and the zeroing of a group.
pub fn cases(side: Side) -> Vec<(String, Round)> {
    let mut cases = Vec::new();
    for (request_name, asked) in REQUESTS {
        for (slot_name, slot) in SLOTS {
            cases.push((format!("{request_name} {slot_name}"), round(print(&slot_sheet(slot())), FIRST, asked, side)));
        }
    }
    cases.push(("zero group".to_string(), round(print(&group_sheet()), FIRST, Request::Zero, side)));
    cases
}

/// The kinds of requests that the last field of a sheet takes, by name. A sheet that is refused takes any one.
pub fn asked(bytes: &[u8]) -> Vec<(&'static str, Request)> {
    let slot = [("type's text", TYPE), ("getter", GETTER), ("setter", Request::Setter), ("haser", HASER)];
    match read(bytes) {
        Ok(sheet) => match last_field(&sheet) {
            Some((_, Field::Slot(_))) => slot.to_vec(),
            Some((_, Field::Group(_))) => vec![("zeroing", Request::Zero)],
            None => Vec::new(),
        },
        Err(_) => vec![("any", TYPE)],
    }
}

/// The rounds of those requests.
pub fn of_sheet(bytes: &[u8], side: Side) -> Vec<Round> {
    let at = read(bytes).ok().and_then(|sheet| Some(last_field(&sheet)?.0)).unwrap_or(FIRST);
    asked(bytes).into_iter().map(|(_, request)| round(bytes.to_vec(), at, request, side)).collect()
}

/// The last field of the first node that has any.
fn last_field(sheet: &Sheet) -> Option<(FieldAt, &Field)> {
    let node = sheet.nodes.iter().find(|node| !node.fields.is_empty())?;
    Some(((node.id, node.fields.len() - 1), node.fields.last()?))
}

/// The answer to a request on a field.
fn round(bytes: Vec<u8>, at: FieldAt, request: Request, side: Side) -> Round {
    let mut buffer = vec![0; BUFFER];
    match side {
        Side::Rust => {
            let sheet: &'static Sheet = Box::leak(Box::new(read(&bytes).expect("the sheet is admitted")));
            let ctx = context(sheet);
            let node = sheet.nodes.iter().find(|node| node.id == at.0).expect("the node is there");
            Box::new(move || discard(text_of_field(&ctx, node, &node.fields[at.1], request)))
        }
        Side::RustFromBytes => Box::new(move || {
            discard(answer(black_box(&bytes), at.0, at.1 as u64, request, State::flat(0), &mut buffer))
        }),
        Side::Kitlubas => Box::new(move || {
            let mut state = State::flat(0);
            discard(boundary::answer::answer(black_box(&bytes), at.0, at.1 as u64, request, &mut state, &mut buffer));
        }),
    }
}
