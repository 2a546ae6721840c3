//! Values that the paired setters write into messages, beside what Cap'n Proto's own tool writes for the same values, which are
//! given to it as text: `capnp encode` with the schema bed.capnp.

use crate::known::{KnownFamily, KnownNode, KnownSlot};
use crate::pair::AnyReader;
use crate::random::Random;
use crate::roots::{self, Message};
use crate::slots::Slot;
use crate::tally::Tally;
use crate::tool::{self, is_nan, STATUS};
use capnp::message::ReaderOptions;
use capnp::private::layout::StructBuilder;
use capnp::serialize;

/// A value that was written into a slot, and the names of the slot's groups.
struct Written {
    path: &'static str,
    slot: &'static Slot,
    bits: u64,
}

/// A record's data bytes, and what was written into it.
struct Record {
    section: Vec<u8>,
    written: Vec<Written>,
}

/// Writes values into messages of a family, has the same values encoded, and compares every data byte.
pub fn compare(family: &KnownFamily, count: usize, random: &mut Random) -> Tally {
    let mut tally = Tally::default();
    let (mut texts, mut records) = (String::new(), Vec::new());
    for _ in 0..count {
        let mut message = Message::new_default();
        let record = roots::new_record(&mut message, family.family.data, family.family.pointers);
        let written = write(record, family, random);
        texts += &text(family, &family.nodes[0], &written);
        texts.push('\n');
        records.push(Record { section: record.into_reader().get_data_section_as_blob().to_vec(), written });
    }
    let output = tool::run(&["encode"], texts.into_bytes());
    tally.count(output.status.success(), || "capnp encode failed".into());
    let mut encoded = &output.stdout[..];
    for record in &records {
        compare_message(&mut encoded, record, &mut tally);
    }
    tally.count(encoded.is_empty(), || format!("{} bytes were encoded too many", encoded.len()));
    tally
}

/// The next encoded message has the record's data bytes but its last word, which was never set, and a getter finds every value
/// there.
fn compare_message(encoded: &mut &[u8], record: &Record, tally: &mut Tally) {
    let message = serialize::read_message(encoded, ReaderOptions::new());
    let root = message.as_ref().ok().and_then(|message| message.get_root().ok());
    let Some(AnyReader(reader)) = root else {
        tally.count(false, || format!("{:?} was written, and no record encoded", record.section));
        return;
    };
    let section = reader.get_data_section_as_blob();
    let is_same = record.section.strip_prefix(section) == Some(&[0; 8]);
    tally.count(is_same, || format!("{section:?} was encoded, not {:?}", record.section));
    for Written { slot, bits, .. } in record.written.iter().filter(|written| written.slot.paired.is_some()) {
        let read = (slot.readers[0].run)(reader);
        tally.encoded.read(slot, *bits, read);
        tally.count(read == *bits, || format!("{} reads {read} from what was encoded of {bits}", slot.name));
    }
}

/// Sets most of the slots that are in no union, and of each union a member that is no pointer, by their paired setters; a Void
/// slot by its setter.
fn write(record: StructBuilder<'_>, family: &KnownFamily, random: &mut Random) -> Vec<Written> {
    let mut written = Vec::new();
    for node in &family.nodes {
        let members = node.slots.iter().filter(|known| known.slot.tag.is_some());
        let chosen = members.clone().nth(random.below(members.count().max(1) as u64) as usize);
        let others = node.slots.iter().filter(|known| known.slot.tag.is_none());
        let set: Vec<&KnownSlot> = others.filter(|_| random.below(8) > 0).chain(chosen).collect();
        for known in set {
            let (path, slot) = (node.node.path, known.slot);
            let setter = slot.paired.as_ref().unwrap_or(&slot.setter);
            written.push(Written { path, slot, bits: (setter.run)(record, value(known, random)) });
        }
    }
    written
}

/// A value that has a text: of a NaN it could not be said which it is.
fn value(known: &KnownSlot, random: &mut Random) -> u64 {
    loop {
        let bits = known.value(random);
        if !is_nan(known.slot.kind, bits) {
            return bits;
        }
    }
}

/// The values of a node and of the groups in it as the tool reads them: `(name = value, ...)`.
fn text(family: &KnownFamily, node: &KnownNode, written: &[Written]) -> String {
    let own = written.iter().filter(|value| value.path == node.node.path);
    let own = own.map(|value| format!("{} = {}", value.slot.name, text_of(value.slot.kind, value.bits)));
    let groups = node.groups.iter().map(|known| {
        let inner = &family.nodes[known.inside[0]];
        format!("{} = {}", known.group.name, text(family, inner, written))
    });
    format!("({})", own.chain(groups).collect::<Vec<String>>().join(", "))
}

/// The text of a value. That of a float has a point or an exponent, and tells it from every other one.
fn text_of(kind: u64, bits: u64) -> String {
    match kind {
        0 => "void".into(),
        1 => (bits == 1).to_string(),
        2 => (bits as i8).to_string(),
        3 => (bits as i16).to_string(),
        4 => (bits as i32).to_string(),
        5 => (bits as i64).to_string(),
        6..=9 => bits.to_string(),
        10 => format!("{:?}", f64::from(f32::from_bits(bits as u32))),
        11 => format!("{:?}", f64::from_bits(bits)),
        15 => STATUS[bits as usize].into(),
        _ => unreachable!("a pointer is not written as text"),
    }
}
