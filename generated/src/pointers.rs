//! Setters, initializers, getters and hasers of pointer slots, and the zeroing of groups.

use crate::data;
use crate::elements::Element;
use crate::known::{KnownFamily, KnownGroup, KnownPointer};
use crate::meaning;
use crate::pair::Pair;
use crate::random::Random;
use crate::record;
use crate::tally::Tally;
use capnp::private::layout::StructReader;

/// For each pointer that is not null, the slot that it was set through and the value as it is shown.
pub type Owners = Vec<Option<(&'static str, String)>>;

const INTERFACE: u64 = 17;
const ANY_POINTER: u64 = 18;

/// One operation on a pointer slot.
pub fn step(
    pair: &mut Pair,
    family: &KnownFamily,
    known: &KnownPointer,
    owners: &mut Owners,
    random: &mut Random,
    tally: &mut Tally,
) {
    // What was set to a capability can't be cleared in capnp 0.14.
    let can_clear = known.slot.kind != INTERFACE;
    match random.below(8) {
        0 | 1 if can_clear || !family.has_groups() => set(pair, known, owners, random, tally),
        2 if can_clear => init(pair, known, owners, random, tally),
        3 if can_clear => clear(pair, known, owners, tally),
        4 | 5 => get(pair, known, owners, tally),
        _ => has(pair, known, None, tally),
    }
}

/// The tag's lines, on the copy.
fn run_tag(pair: &mut Pair, known: &KnownPointer) -> bool {
    meaning::run(&known.tag, None, &mut pair.section, &mut pair.pointers)
}

fn set(pair: &mut Pair, known: &KnownPointer, owners: &mut Owners, random: &mut Random, tally: &mut Tally) {
    let shown = (known.slot.set)(pair.record, random.next());
    let pointer = known.slot.offset as usize;
    let has_meaning = run_tag(pair, known);
    pair.pointers[pointer] = 1;
    owners[pointer] = Some((known.slot.name, shown));
    tally.count(has_meaning && pair.same(), || format!("{} set leaves another record", known.slot.name));
}

/// An initializer leaves a value of zeros, but that of AnyPointer leaves null.
fn init(pair: &mut Pair, known: &KnownPointer, owners: &mut Owners, random: &mut Random, tally: &mut Tally) {
    let Some(init) = known.slot.init else { return };
    let shown = init(pair.record, random.below(9) as u32);
    let pointer = known.slot.offset as usize;
    let has_meaning = run_tag(pair, known);
    let is_null = known.slot.kind == ANY_POINTER && shown == "null";
    pair.pointers[pointer] = u8::from(!is_null);
    owners[pointer] = if is_null { None } else { Some((known.slot.name, shown)) };
    tally.count(has_meaning && pair.same(), || format!("{} initialized leaves another record", known.slot.name));
}

fn clear(pair: &mut Pair, known: &KnownPointer, owners: &mut Owners, tally: &mut Tally) {
    pair.record.get_pointer_field(known.slot.offset as usize).clear();
    let has_meaning = record::clear(&mut pair.pointers, known.slot.offset);
    owners[known.slot.offset as usize] = None;
    tally.count(has_meaning && pair.same(), || format!("{} cleared leaves another record", known.slot.name));
}

/// Each haser of a slot says what its text means, and where something is expected, that.
fn has(pair: &Pair, known: &KnownPointer, expected: Option<bool>, tally: &mut Tally) {
    let answers = [(known.slot.has_reader.run)(pair.record.into_reader()), (known.slot.has_builder.run)(pair.record)];
    for (answer, has) in answers.into_iter().zip(known.has) {
        let meant = has.run(&pair.section, &pair.pointers);
        let right = meant == answer && expected.unwrap_or(answer) == answer;
        tally.count(right, || format!("{} says {answer}, its text means {meant}", known.slot.name));
    }
}

/// The getters of a slot whose pointer is null or was set through this slot. A builder's getter may put the default or
/// an empty struct where the pointer was null, so that the copy follows the record there.
fn get(pair: &mut Pair, known: &KnownPointer, owners: &mut Owners, tally: &mut Tally) {
    let (slot, pointer) = (known.slot, known.slot.offset as usize);
    let Some(expected) = shown(known, owners) else { return };
    for getter in &slot.readers {
        let answer = (getter.run)(pair.record.into_reader());
        tally.count(answer == expected, || format!("{} reads {answer}, not {expected}", slot.name));
    }
    for getter in &slot.builders {
        let answer = (getter.run)(pair.record);
        if owners[pointer].is_none() && !pair.is_null(pointer) {
            pair.pointers[pointer] = 1;
            owners[pointer] = Some((slot.name, expected.clone()));
        }
        tally.count(answer == expected && pair.same(), || format!("{} reads {answer}, not {expected}", slot.name));
    }
}

/// The reader's getters and hasers on a record that was written out and read again, without its capabilities, or that is too
/// short for some slots: a pointer that is not there is null, and a tag reads 0.
pub fn get_from_reader(
    reader: StructReader<'_>,
    family: &KnownFamily,
    flags: &[u8],
    owners: &Owners,
    tally: &mut Tally,
) {
    let section = reader.get_data_section_as_blob();
    for known in family.nodes.iter().flat_map(|node| &node.pointers) {
        let slot = known.slot;
        let (answer, meant) = ((slot.has_reader.run)(reader), known.has[0].run(section, flags));
        tally.readers.pointer(known.has[0].is_inside(section, flags));
        tally.count(meant == answer, || format!("{} says {answer}, its text means {meant}", slot.name));
        let Some(expected) = shown(known, owners).filter(|_| slot.kind != INTERFACE) else { continue };
        for getter in &slot.readers {
            let answer = (getter.run)(reader);
            tally.count(answer == expected, || format!("{} reads {answer}, not {expected}", slot.name));
        }
    }
}

/// The builder's hasers on a record that was written short and opened with more, which say what their texts mean on the short
/// bytes; then the getters. A tag that was split by the end is found with the byte that was there.
pub fn get_from_builder(
    pair: &mut Pair,
    short: &Element,
    family: &KnownFamily,
    owners: &mut Owners,
    tally: &mut Tally,
) {
    let all = || family.nodes.iter().flat_map(|node| &node.pointers);
    for known in all() {
        let [_, has] = known.has;
        let section = if has.is_split(&short.section) { &pair.section } else { &short.section };
        let (answer, meant) = ((known.slot.has_builder.run)(pair.record), has.run(section, &short.pointers));
        tally.builders.pointer(has.is_inside(&short.section, &short.pointers));
        tally.count(meant == answer, || format!("{} says {answer}, its text means {meant}", known.slot.name));
    }
    for known in all() {
        get(pair, known, owners, tally);
    }
}

/// What the getters of a slot show: nothing is said where its pointer was set through another slot.
fn shown(known: &KnownPointer, owners: &Owners) -> Option<String> {
    match &owners[known.slot.offset as usize] {
        None => Some((known.slot.default)()),
        Some((owner, shown)) => (*owner == known.slot.name).then(|| shown.clone()),
    }
}

/// The zeroing of a group: then each getter of a data slot in it gives exactly the default, and each haser says false.
pub fn zero(pair: &mut Pair, family: &KnownFamily, known: &KnownGroup, owners: &mut Owners, tally: &mut Tally) {
    (known.group.zero)(pair.record);
    let has_meaning = meaning::run(&known.zero, None, &mut pair.section, &mut pair.pointers);
    for (owner, _) in owners.iter_mut().zip(&pair.pointers).filter(|(_, flag)| **flag == 0) {
        *owner = None;
    }
    tally.count(has_meaning && pair.same(), || format!("{} zeroed leaves another record", known.group.name));
    for node in known.inside.iter().map(|place| &family.nodes[*place]) {
        for slot in node.slots.iter().filter(|slot| slot.slot.kind != 0) {
            data::get(pair, slot, Some(slot.slot.default), tally);
        }
        for pointer in &node.pointers {
            has(pair, pointer, Some(false), tally);
        }
    }
}
