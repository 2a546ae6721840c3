//! Messages that the generated setters write, read by Cap'n Proto's own tool: `capnp decode` with the schema bed.capnp.

use crate::known::{KnownFamily, KnownGroup, KnownNode, KnownSlot};
use crate::pair;
use crate::random::Random;
use crate::record as library;
use crate::roots::{self, Message};
use crate::slots::{PointerSlot, Slot};
use crate::tally::Tally;
use crate::tool::{self, is_nan, STATUS};
use capnp::private::layout::StructBuilder;
use capnp::serialize;
use std::collections::BTreeMap;

/// What a message was given: a data slot and its value, a data slot that was zeroed with its group, or the text that a
/// pointer's value is shown as.
enum Written {
    Data(&'static Slot, u64),
    Zeroed(&'static Slot),
    Shown(String),
}

/// By the field's name with the names of its groups.
type Fields = BTreeMap<String, Written>;

/// Writes messages of a family, has them decoded, and compares every field.
pub fn compare(family: &KnownFamily, count: usize, random: &mut Random) -> Tally {
    let mut tally = Tally::default();
    let (mut bytes, mut messages) = (Vec::new(), Vec::new());
    for _ in 0..count {
        let mut message = Message::new_default();
        let record = roots::new_record(&mut message, family.family.data, family.family.pointers);
        messages.push(write(record, family, random));
        serialize::write_message(&mut bytes, &message).expect("a message can be written to memory");
    }
    for (line, message) in decode(bytes, count, &mut tally).lines().zip(&messages) {
        compare_message(line, message, &mut tally);
    }
    tally
}

/// A message that was cut: what the whole one was given, the data bytes that are left, and how many pointers.
struct Cut {
    written: Fields,
    section: Vec<u8>,
    pointers: u16,
}

/// Has such messages decoded after words and pointers were cut off: every data field is what its getter's text means on the
/// bytes that are left, which is the default where it is not wholly inside, a pointer is the one that was written or absent,
/// and a union has the member of its tag.
pub fn compare_cut(family: &KnownFamily, count: usize, random: &mut Random) -> Tally {
    let mut tally = Tally::default();
    let (mut bytes, mut cuts) = (Vec::new(), Vec::new());
    for size in family.short_sizes().into_iter().cycle().take(count) {
        let (mut message, mut short, mut caps) = (Message::new_default(), Message::new_default(), Vec::new());
        let whole = roots::new_record(&mut message, family.family.data, family.family.pointers);
        let written = write(whole, family, random);
        let cut = pair::cut(whole.into_reader(), size, &mut short, &mut caps).into_reader();
        cuts.push(Cut { written, section: cut.get_data_section_as_blob().to_vec(), pointers: size.1 });
        serialize::write_message(&mut bytes, &short).expect("a message can be written to memory");
    }
    for (line, cut) in decode(bytes, count, &mut tally).lines().zip(&cuts) {
        compare_cut_message(line, family, cut, &mut tally);
    }
    tally
}

fn compare_cut_message(line: &str, family: &KnownFamily, cut: &Cut, tally: &mut Tally) {
    let mut fields = BTreeMap::new();
    let rest = read_struct(line, "", &mut fields);
    let is_member = |(offset, member)| library::tag_is(&cut.section, offset, member);
    for node in &family.nodes {
        for known in node.slots.iter().filter(|known| known.slot.tag.is_none_or(is_member)) {
            let text = fields.remove(&format!("{}{}", node.node.path, known.slot.name)).unwrap_or_default();
            compare_cut_slot(text, known, &cut.section, tally);
        }
        for slot in node.node.pointers.iter().filter(|slot| slot.tag.is_none_or(is_member)) {
            let name = format!("{}{}", node.node.path, slot.name);
            compare_cut_pointer(fields.remove(&name), slot, cut.written.get(&name), cut.pointers, tally);
        }
    }
    tally.count(rest == Some("") && fields.is_empty(), || format!("decoded with other fields: {line}"));
}

fn compare_cut_slot(text: &str, known: &KnownSlot, section: &[u8], tally: &mut Tally) {
    let (slot, get) = (known.slot, known.gets.first());
    let meant = get.map_or(0, |get| get.run(section));
    let is_past = get.is_some_and(|get| !get.place.is_inside(section));
    let right = is_text_of(slot.kind, text, meant) && (!is_past || meant == slot.default);
    if let Some(get) = get {
        tally.decoded.get(get.place, section);
    }
    tally.count(right, || format!("{}: {text} decoded, its getter's text means {meant}", slot.name));
}

/// A pointer that is left is decoded as it was written. One that is absent is decoded only as the member of its union.
fn compare_cut_pointer(
    text: Option<&str>,
    slot: &PointerSlot,
    written: Option<&Written>,
    left: u16,
    tally: &mut Tally,
) {
    let is_left = slot.offset < left.into();
    let expected = match written {
        Some(Written::Shown(shown)) if is_left => Some(shown.clone()),
        _ => slot.tag.map(|_| (slot.default)()),
    };
    tally.decoded.pointer(is_left);
    tally.kept += u64::from(is_left && text.is_some());
    tally.count(text == expected.as_deref(), || format!("{}: {text:?} decoded, not {expected:?}", slot.name));
}

/// Sets every field that is in no union, and of each union one; then zeroes the groups of a message in four.
fn write(record: StructBuilder<'_>, family: &KnownFamily, random: &mut Random) -> Fields {
    let mut message = Fields::new();
    for node in &family.nodes {
        let members = node.node.slots.iter().filter(|slot| slot.tag.is_some()).count()
            + node.node.pointers.iter().filter(|slot| slot.tag.is_some()).count();
        let chosen = random.below(members.max(1) as u64);
        write_node(record, node, chosen as u16, random, &mut message);
    }
    if random.below(4) == 0 {
        for group in &family.nodes[0].groups {
            zero(record, family, group, &mut message);
        }
    }
    message
}

/// Zeroes a group: its union's first member is set, and its pointers are absent.
fn zero(record: StructBuilder<'_>, family: &KnownFamily, group: &KnownGroup, message: &mut Fields) {
    (group.group.zero)(record);
    for node in group.inside.iter().map(|place| family.nodes[*place].node) {
        message.retain(|name, _| !name.starts_with(node.path));
        for slot in node.slots.iter().filter(|slot| slot.tag.is_none_or(|(_, member)| member == 0)) {
            message.insert(format!("{}{}", node.path, slot.name), Written::Zeroed(slot));
        }
    }
}

fn write_node(record: StructBuilder<'_>, known: &KnownNode, chosen: u16, random: &mut Random, message: &mut Fields) {
    let is_set = |tag: Option<(u32, u16)>| tag.is_none_or(|(_, member)| member == chosen);
    let node = known.node;
    for slot in node.slots.iter().filter(|slot| is_set(slot.tag)) {
        let value = (slot.setter.run)(record, random.bits(8));
        message.insert(format!("{}{}", node.path, slot.name), Written::Data(slot, value));
    }
    for slot in node.pointers.iter().filter(|slot| is_set(slot.tag)) {
        let shown = (slot.set)(record, random.next());
        message.insert(format!("{}{}", node.path, slot.name), Written::Shown(shown));
    }
}

/// The lines of so many messages, one for each.
fn decode(bytes: Vec<u8>, count: usize, tally: &mut Tally) -> String {
    // Quiet: it does not guess the form of its input, of which it takes an empty record for another.
    let output = tool::run(&["decode", "--quiet", "--short"], bytes);
    let decoded = String::from_utf8(output.stdout).expect("capnp writes text");
    let lines = decoded.lines().count();
    tally.count(output.status.success() && lines == count, || format!("{lines} messages of {count} were decoded"));
    decoded
}

fn compare_message(line: &str, message: &Fields, tally: &mut Tally) {
    let mut fields = BTreeMap::new();
    let rest = read_struct(line, "", &mut fields);
    tally.count(rest == Some("") && fields.keys().eq(message.keys()), || format!("decoded with other fields: {line}"));
    for (name, written) in message {
        let Some(text) = fields.get(name) else { continue };
        match written {
            Written::Shown(shown) => tally.count(text == shown, || format!("{name}: {text} decoded, {shown} written")),
            Written::Data(slot, value) => compare_value(name, text, slot, *value, tally),
            Written::Zeroed(slot) => tally.count(is_text_of(slot.kind, text, slot.default), || {
                format!("{name}: {text} decoded after its group was zeroed")
            }),
        }
    }
}

/// A decoded value is the one that was written, but for the two exceptions.
fn compare_value(name: &str, text: &str, slot: &Slot, written: u64, tally: &mut Tally) {
    let expected = slot.expected(written);
    let is_expected = is_text_of(slot.kind, text, expected);
    tally.count(is_expected, || format!("{name}: {text} decoded, {written} written"));
    let decoded = if is_expected { Some(expected) } else { bits(slot.kind, text) };
    if let (Some(decoded), true) = (decoded, slot.kind != 0 && text != "nan") {
        tally.read(slot, written, decoded);
    }
}

/// Whether these bits are decoded as this text. The text of a NaN does not say which it is.
fn is_text_of(kind: u64, text: &str, expected: u64) -> bool {
    if text == "nan" {
        return is_nan(kind, expected);
    }
    has_these_digits(kind, text, expected) || bits(kind, text) == Some(expected)
}

/// The tool writes a Float32 with 8 digits at most, which do not always tell it from its neighbours.
fn has_these_digits(kind: u64, text: &str, expected: u64) -> bool {
    let digits = |number: f64| format!("{number:.7e}");
    kind == 10 && text.parse().map(digits) == Ok(digits(f32::from_bits(expected as u32).into()))
}

/// The bits of a value that is written as text.
fn bits(kind: u64, text: &str) -> Option<u64> {
    match kind {
        0 => (text == "void").then_some(0),
        1 => text.parse::<bool>().ok().map(u64::from),
        2 => text.parse::<i8>().ok().map(|n| n as u8 as u64),
        3 => text.parse::<i16>().ok().map(|n| n as u16 as u64),
        4 => text.parse::<i32>().ok().map(|n| n as u32 as u64),
        5 => text.parse::<i64>().ok().map(|n| n as u64),
        6 => text.parse::<u8>().ok().map(u64::from),
        7 => text.parse::<u16>().ok().map(u64::from),
        8 => text.parse::<u32>().ok().map(u64::from),
        9 => text.parse::<u64>().ok(),
        10 => text.parse::<f32>().ok().map(|x| x.to_bits() as u64),
        11 => text.parse::<f64>().ok().map(f64::to_bits),
        // An enum's number that has no name stands in parentheses.
        15 => match STATUS.iter().position(|name| *name == text) {
            Some(number) => Some(number as u64),
            None => text.strip_prefix('(')?.strip_suffix(')')?.parse().ok(),
        },
        _ => None,
    }
}

/// Reads `(name = value, ...)` and gives the rest; a group's fields go under its name with a dot.
fn read_struct<'t>(text: &'t str, path: &str, fields: &mut BTreeMap<String, &'t str>) -> Option<&'t str> {
    let mut rest = text.strip_prefix('(')?;
    loop {
        let (name, value) = rest.split_once(" = ")?;
        let name = format!("{path}{name}");
        let is_group = value.starts_with('(') && !value[1..].starts_with(|c: char| c.is_ascii_digit());
        rest = if is_group {
            read_struct(value, &format!("{name}."), fields)?
        } else {
            let end = value_end(value);
            fields.insert(name, &value[..end]);
            &value[end..]
        };
        match rest.strip_prefix(", ") {
            Some(next) => rest = next,
            None => return rest.strip_prefix(')'),
        }
    }
}

/// Where a value ends: behind its bracket or quote, or before the next comma or parenthesis.
fn value_end(value: &str) -> usize {
    let behind = |last: char| value[1..].find(last).map_or(value.len(), |at| at + 2);
    match value.as_bytes().first() {
        Some(b'"') => behind('"'),
        Some(b'[') => behind(']'),
        Some(b'(') => behind(')'),
        _ => value.find([',', ')']).unwrap_or(value.len()),
    }
}
