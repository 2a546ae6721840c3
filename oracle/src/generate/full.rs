//! Sheets with a part that fills the buffer of the program `accessors`, and one that is a byte shorter or longer; and sheets that
//! give the program `verdicts` as much to print as can be.

use super::corners::{node, slot, Corner};
use super::filled;
use crate::answer::{written, Request};
use crate::context::context;
use crate::program::BUFFER;
use crate::sheet::{Node, Sheet, Type, ENUM, FLOAT32, MAX_BYTES};

pub fn all() -> Vec<Corner> {
    (BUFFER - 1..=BUFFER + 1)
        .map(|length| Corner { name: format!("a getter of {length} bytes"), sheet: getter_of(length) })
        .collect()
}

/// A struct's unbound parameters make its getter long; the module stands in it once and makes up the rest.
fn getter_of(length: usize) -> Sheet {
    let shortest = getter_length(&branded(1, 1));
    let parameter = getter_length(&branded(2, 1)) - shortest;
    let more = length - shortest;
    let sheet = branded(1 + more / parameter, 1 + more % parameter);
    assert_eq!(getter_length(&sheet), length);
    sheet
}

/// A slot of a struct with so many parameters and a module of so many bytes.
fn branded(parameters: usize, module: usize) -> Sheet {
    let mut bed = node(1, 0, &"b".repeat(module), &[]);
    bed.parameters = vec!["T".to_string(); parameters];
    Sheet::of(vec![bed.slots([slot("next", Type::Struct(1, Vec::new()))])])
}

fn getter_length(sheet: &Sheet) -> usize {
    let getter = Request::Getter { reader: true, function: false };
    written(sheet, &context(sheet), 1, 0, getter).expect("a struct's getter has a text").at(0).len()
}

/// Sheets of as many slots with bits as can be, with the shortest names and with the longest.
pub fn slots() -> Vec<Corner> {
    let named = |length: usize| Corner {
        name: format!("slots with names of {length}"),
        sheet: filled(MAX_BYTES, |count| of_slots(&"n".repeat(length), count)),
    };
    [1, 64].map(named).into()
}

/// So many slots, of each verdict by turns, of a node with the longest id.
fn of_slots(name: &str, count: usize) -> Vec<Node> {
    let id = u64::MAX;
    let by_turns = [
        slot(name, Type::Enum(id, Vec::new())).default(ENUM, 2, false),
        slot(name, Type::Plain(1)).default(1, 1, true),
        slot(name, Type::Plain(FLOAT32)).default(FLOAT32, 1 << 31, true),
        slot(name, Type::Plain(7)).default(FLOAT32, 0, false),
    ];
    vec![node(id, 0, "bed", &[]).slots(by_turns.into_iter().cycle().take(count))]
}
