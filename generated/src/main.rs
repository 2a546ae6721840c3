//! Runs the accessors that Kitlubas wrote, compiled against the Cap'n Proto runtime for Rust, on records in real
//! messages, whole and short, and the meaning of their texts on a copy of the records' bytes, and compares every answer,
//! every data byte and every pointer after each operation. Then has messages that the setters wrote, whole and cut,
//! decoded by Cap'n Proto's own tool, and values that the paired setters wrote encoded by it.
//!
//!     generated [operations [seed]]

mod data;
mod decode;
mod encode;
#[rustfmt::skip]
#[path = "../../runtime/src/elements.rs"]
mod elements;
mod enums;
mod known;
mod meaning;
mod pair;
mod pointers;
#[allow(dead_code)]
#[rustfmt::skip]
#[path = "../../runtime/src/random.rs"]
mod random;
#[rustfmt::skip]
#[path = "../../runtime/src/kitlubas.rs"]
mod record;
#[rustfmt::skip]
#[path = "../../runtime/src/roots.rs"]
mod roots;
mod runtime;
mod samples;
mod service;
mod slots;
mod structs;
mod tally;
mod tool;
mod values;

/// What Kitlubas wrote, as build.rs puts it together. Not every form of every accessor of the inner structs is called, and
/// letters with accents are neither lowered nor raised in names.
#[allow(dead_code, non_snake_case, non_upper_case_globals, clippy::all)]
mod accessors {
    include!(concat!(env!("OUT_DIR"), "/accessors.rs"));
}

use capnp::private::layout::StructReader;
use elements::Element;
use known::KnownFamily;
use pair::{AnyReader, Pair};
use pointers::Owners;
use random::Random;
use roots::Message;
use tally::Tally;

/// Steps on one record and on one that was opened with more, and messages that are decoded, or encoded.
const STEPS: u64 = 200;
const OPENED_STEPS: u64 = 20;
const MESSAGES: usize = 5_000;

fn main() {
    let mut args = std::env::args().skip(1);
    let operations: u64 = args.next().map_or(10_000_000, |word| word.parse().expect("a number of operations"));
    let seed: u64 = args.next().map_or(1, |word| word.parse().expect("a seed"));
    let mut random = Random::new(seed);
    let families: Vec<KnownFamily> = accessors::FAMILIES.iter().map(KnownFamily::new).collect();

    let mut all = Tally::default();
    for family in &families {
        print_family(family);
        let tally = work_family(family, operations / families.len() as u64, &mut random);
        tally.print(family.family.name);
        all.add(&tally);
    }
    for family in families.iter().filter(|family| family.family.name.starts_with("bed")) {
        let tally = decode::compare(family, MESSAGES, &mut random);
        tally.print(&format!("{}, {MESSAGES} messages decoded", family.family.name));
        all.add(&tally);
        let tally = decode::compare_cut(family, MESSAGES, &mut random);
        tally.print(&format!("{}, {MESSAGES} cut messages decoded", family.family.name));
        all.add(&tally);
        let tally = encode::compare(family, MESSAGES, &mut random);
        tally.print(&format!("{}, {MESSAGES} messages encoded", family.family.name));
        all.add(&tally);
    }
    all.print("all");
    all.print_left_out();
    println!("{} operations, {} different", all.operations, all.different);
    if !all.is_right() {
        std::process::exit(1);
    }
}

fn print_family(family: &KnownFamily) {
    let slots = || family.nodes.iter().flat_map(|node| &node.slots);
    let flips = slots().filter(|known| matches!(known.slot.kind, 10 | 11) && known.slot.expected(0) != 0).count();
    let combined = slots().filter(|known| known.slot.kind == 15 && known.slot.expected(0) != 0).count();
    println!(
        "{}: {} data slots, {flips} with default -0.0, {combined} with an enum default and no flag; {} pointer slots, {} groups",
        family.family.name,
        slots().count(),
        family.nodes.iter().map(|node| node.pointers.len()).sum::<usize>(),
        family.nodes.iter().map(|node| node.groups.len()).sum::<usize>(),
    );
}

/// Records of a family, until there were so many operations and a record was cut to every size.
fn work_family(family: &KnownFamily, operations: u64, random: &mut Random) -> Tally {
    let mut tally = Tally::default();
    let sizes = family.short_sizes();
    let mut round = 0;
    while round < sizes.len() || tally.operations < operations {
        work(family, sizes[round % sizes.len()], random, &mut tally);
        work_list(family, random, &mut tally);
        round += 1;
    }
    tally
}

/// One record of a family: random steps, then its reader's accessors on the message read again, and the accessors on the
/// record cut to a size.
fn work(family: &KnownFamily, size: (u16, u16), random: &mut Random, tally: &mut Tally) {
    let (data, pointers) = (family.family.data, family.family.pointers);
    let mut message = Message::new_default();
    let mut caps = Vec::new();
    let mut pair = Pair::new(roots::new_record(&mut message, data, pointers), &mut caps, random);
    let mut owners = vec![None; pointers as usize];
    for _ in 0..STEPS {
        step(&mut pair, family, &mut owners, random, tally);
    }
    work_short(&pair, family, size, owners.clone(), random, tally);

    let (section, flags) = (pair.section, pair.pointers);
    let bytes = capnp::serialize::write_message_to_words(&message);
    let options = capnp::message::ReaderOptions::new();
    let again = capnp::serialize::read_message(&bytes[..], options).expect("the message can be read again");
    let AnyReader(reader) = again.get_root().expect("the message has a root");
    tally.count(reader.get_data_section_as_blob() == section, || "the message read again is another".into());
    data::get_from_reader(reader, family, tally);
    pointers::get_from_reader(reader, family, &flags, &owners, tally);
}

/// The accessors on a record that was cut to so many words and pointers. Readers read it as it is; builders after it was opened
/// with the family's sizes.
fn work_short(
    whole: &Pair,
    family: &KnownFamily,
    (words, pointers): (u16, u16),
    mut owners: Owners,
    random: &mut Random,
    tally: &mut Tally,
) {
    let mut message = Message::new_default();
    let mut caps = Vec::new();
    let section = whole.section[..words as usize * 8].to_vec();
    let short = Element { section, pointers: whole.pointers[..pointers as usize].to_vec() };
    owners[pointers as usize..].fill(None);
    let cut = pair::cut(whole.record.into_reader(), (words, pointers), &mut message, &mut caps);
    read(cut.into_reader(), family, &short, &owners, random, tally);
    let opened = roots::open_record(&mut message, family.family.data, family.family.pointers);
    let mut pair = Pair::opened(opened, &mut caps, &short);
    work_opened(&mut pair, family, &short, owners, random, tally);
}

/// The same on the elements of a list of numbers or texts, which may end in the middle of a slot. Their pointers were set
/// through no slot.
fn work_list(family: &KnownFamily, random: &mut Random, tally: &mut Tally) {
    let mut message = Message::new_default();
    let filled = elements::fill(&mut message, random);
    let owners = |element: &Element| {
        let mut owners = vec![None; family.family.pointers as usize];
        for (owner, _) in owners.iter_mut().zip(&element.pointers).filter(|(_, flag)| **flag != 0) {
            *owner = Some(("", String::new()));
        }
        owners
    };
    for (reader, element) in elements::records(&message).into_iter().zip(&filled) {
        read(reader, family, element, &owners(element), random, tally);
    }
    let opened = roots::open_elements(&mut message, family.family.data, family.family.pointers);
    for (record, element) in opened.into_iter().zip(&filled) {
        let mut caps = Vec::new();
        let mut pair = Pair::opened(record, &mut caps, element);
        work_opened(&mut pair, family, element, owners(element), random, tally);
    }
}

/// The reader's accessors on a short record, and the texts that write.
fn read(
    reader: StructReader<'_>,
    family: &KnownFamily,
    short: &Element,
    owners: &Owners,
    random: &mut Random,
    tally: &mut Tally,
) {
    let is_same = reader.get_data_section_as_blob() == short.section;
    tally.count(is_same, || "a short record has other bytes".into());
    data::get_from_reader(reader, family, tally);
    pointers::get_from_reader(reader, family, &short.pointers, owners, tally);
    data::write_short(short, family, random, tally);
}

/// The builder's accessors on a short record that was opened with the family's sizes, which then is worked on like any other.
fn work_opened(
    pair: &mut Pair,
    family: &KnownFamily,
    short: &Element,
    mut owners: Owners,
    random: &mut Random,
    tally: &mut Tally,
) {
    tally.count(pair.same(), || "a record opened with more is another".into());
    data::get_from_builder(pair, short, family, tally);
    pointers::get_from_builder(pair, short, family, &mut owners, tally);
    for _ in 0..OPENED_STEPS {
        step(pair, family, &mut owners, random, tally);
    }
}

fn step(pair: &mut Pair, family: &KnownFamily, owners: &mut Owners, random: &mut Random, tally: &mut Tally) {
    let node = &family.nodes[random.below(family.nodes.len() as u64) as usize];
    let pick = |count: usize, random: &mut Random| random.below(count as u64) as usize;
    match random.below(8) {
        0 if !node.groups.is_empty() => {
            pointers::zero(pair, family, &node.groups[pick(node.groups.len(), random)], owners, tally);
        }
        0..=3 if !node.pointers.is_empty() => {
            pointers::step(pair, family, &node.pointers[pick(node.pointers.len(), random)], owners, random, tally);
        }
        4 if !node.slots.is_empty() => {
            data::get(pair, &node.slots[pick(node.slots.len(), random)], None, tally);
        }
        5 if !node.slots.is_empty() => {
            data::set_paired_and_get(pair, &node.slots[pick(node.slots.len(), random)], random, tally);
        }
        _ if !node.slots.is_empty() => {
            data::set_and_get(pair, &node.slots[pick(node.slots.len(), random)], random, tally);
        }
        _ => {}
    }
}
