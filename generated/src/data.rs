//! Setters and getters of data slots: what the runtime reads and writes, and what the texts mean.

use crate::elements::Element;
use crate::known::{KnownFamily, KnownSlot};
use crate::meaning::{self, Get, Op};
use crate::pair::Pair;
use crate::random::Random;
use crate::tally::Tally;
use capnp::private::layout::StructReader;

/// What the compiled getters answer, those of the reader first.
fn answers(pair: &Pair, known: &KnownSlot) -> Vec<u64> {
    let reader = pair.record.into_reader();
    let readers = known.slot.readers.iter().map(|getter| (getter.run)(reader));
    readers.chain(known.slot.builders.iter().map(|getter| (getter.run)(pair.record))).collect()
}

/// Each getter of a slot answers what its text means, and where something is expected, that.
pub fn get(pair: &Pair, known: &KnownSlot, expected: Option<u64>, tally: &mut Tally) -> Vec<u64> {
    let answers = answers(pair, known);
    for (&answer, get) in answers.iter().zip(&known.gets) {
        let meant = get.run(&pair.section);
        let right = meant == answer && expected.unwrap_or(answer) == answer;
        let name = known.slot.name;
        tally.count(right, || format!("{name} reads {answer}, its text means {meant}, and {expected:?} is expected"));
    }
    answers
}

/// The setter of a slot, then each of its getters. Where the slot is clear of its tag, what is read is what the theorem
/// says of the value that was written.
pub fn set_and_get(pair: &mut Pair, known: &KnownSlot, random: &mut Random, tally: &mut Tally) {
    let slot = known.slot;
    let written = (slot.setter.run)(pair.record, known.value(random));
    let has_meaning = meaning::run(&known.set, Some(written), &mut pair.section, &mut pair.pointers);
    tally.count(has_meaning && pair.same(), || format!("{} set to {written} leaves another record", slot.name));
    if !known.is_clear || slot.kind == 0 {
        get(pair, known, None, tally);
        return;
    }
    for answer in get(pair, known, Some(slot.expected(written)), tally) {
        tally.read(slot, written, answer);
    }
}

/// The paired setter of a slot, which changes nothing but the slot and its tag; then each of its getters. Where the slot is
/// clear of its tag, what is read is the value that was written, whatever the default.
pub fn set_paired_and_get(pair: &mut Pair, known: &KnownSlot, random: &mut Random, tally: &mut Tally) {
    let slot = known.slot;
    let (Some(paired), Some(lines)) = (&slot.paired, &known.paired) else { return };
    let (section, pointers) = (pair.section.clone(), pair.pointers.clone());
    let written = (paired.run)(pair.record, known.value(random));
    let has_meaning = meaning::run(lines, Some(written), &mut pair.section, &mut pair.pointers);
    let is_kept = slot.are_others_kept(&section, &pair.section) && pointers == pair.pointers;
    tally.count(has_meaning && is_kept && pair.same(), || {
        format!("{} set to {written} by its paired setter leaves another record", slot.name)
    });
    for answer in get(pair, known, known.is_clear.then_some(written), tally) {
        if known.is_clear {
            tally.paired.read(slot, written, answer);
        }
    }
}

/// An answer is what the get means on these bytes, and exactly the slot's default where it is not wholly inside them.
fn compare(answer: u64, known: &KnownSlot, get: Get, section: &[u8], tally: &mut Tally) {
    let meant = get.run(section);
    let expected = if get.place.is_inside(section) { meant } else { known.slot.default };
    let name = known.slot.name;
    tally.count(answer == meant && answer == expected, || {
        format!("{name} reads {answer}, its text means {meant}, and {expected} is expected")
    });
}

/// The reader's getters on a record that was written out and read again, or that is too short for some slots.
pub fn get_from_reader(reader: StructReader<'_>, family: &KnownFamily, tally: &mut Tally) {
    let section = reader.get_data_section_as_blob();
    for known in family.nodes.iter().flat_map(|node| &node.slots) {
        for (getter, get) in known.slot.readers.iter().zip(&known.gets) {
            tally.readers.get(get.place, section);
            compare((getter.run)(reader), known, *get, section, tally);
        }
    }
}

/// The builder's getters on a record that was written short and opened with more: they read what their texts mean on the
/// short bytes, but in a slot that was split by the end they find the bytes that were there.
pub fn get_from_builder(pair: &Pair, short: &Element, family: &KnownFamily, tally: &mut Tally) {
    for known in family.nodes.iter().flat_map(|node| &node.slots) {
        let gets = known.gets.iter().skip(known.slot.readers.len());
        for (getter, get) in known.slot.builders.iter().zip(gets) {
            tally.builders.get(get.place, &short.section);
            let section = if get.place.is_split(&short.section) { &pair.section } else { &short.section };
            compare((getter.run)(pair.record), known, *get, section, tally);
        }
    }
}

/// The setters' and zeroings' texts on a short record. The runtime's builder has no test of the length: it is not asked.
pub fn write_short(short: &Element, family: &KnownFamily, random: &mut Random, tally: &mut Tally) {
    for node in &family.nodes {
        for known in &node.slots {
            for ops in [Some(&known.set), known.paired.as_ref()].into_iter().flatten() {
                write_all_or_nothing(known.slot.name, ops, Some(known.value(random)), short, tally);
            }
        }
        for known in &node.groups {
            write_all_or_nothing(known.group.name, &known.zero, None, short, tally);
        }
    }
}

/// A text that writes has a meaning exactly where each of its lines is inside; otherwise nothing of it is done.
fn write_all_or_nothing(name: &str, ops: &[Op], value: Option<u64>, short: &Element, tally: &mut Tally) {
    let (mut section, mut pointers) = (short.section.clone(), short.pointers.clone());
    let has_meaning = meaning::run(ops, value, &mut section, &mut pointers);
    let is_inside = |op: &Op| op.is_inside(&short.section, &short.pointers);
    let is_undone = section == short.section && pointers == short.pointers;
    tally.undone += u64::from(!has_meaning && ops.iter().any(is_inside));
    tally.count(has_meaning == ops.iter().all(is_inside) && (has_meaning || is_undone), || {
        format!("{name} in {} bytes has a meaning, or is done in part", section.len())
    });
}
