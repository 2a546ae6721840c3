// Does the same random operations on records in real messages, through the capnp runtime, and on a copy of their bytes, through
// the static library, and compares every answer, every data byte and every pointer after each operation.
//
//     runtime [operations [seed]]
mod accessors;
mod elements;
mod gets;
mod kitlubas;
mod pair;
mod random;
mod roots;
mod sets;
mod tally;

use accessors::{Builder, Reader};
use elements::Element;
use gets::Get;
use pair::Pair;
use random::Random;
use tally::Tally;

// Operations on a record, and on one that is an element of a list or was opened with more.
const STEPS: u64 = 200;
const FEW: u64 = 16;

// Gets and tests of an element, whose bytes are those that the list was filled with.
fn read_element(record: Reader, element: &Element, random: &mut Random, tally: &mut Tally) {
    tally.record(record.reader.get_data_section_as_blob() == &element.section[..]);
    for _ in 0..FEW {
        let get = Get::any(&element.section, &element.pointers, random);
        let bytes = get.choose(&element.section, &element.pointers);
        tally.readers.count(get, get.place(bytes.len()));
        let is_right = get.is_right_at_every_length(get.of_reader(record), bytes, &mut tally.library);
        tally.count(is_right);
    }
}

// A record that was written short and opened with more is read by its builder, and then worked on like any other.
fn work_opened(record: Builder, short: &Element, random: &mut Random, tally: &mut Tally) {
    let mut pair = Pair::opened(record, short);
    tally.record(pair.same());
    for _ in 0..FEW {
        pair.get_opened(short, random, tally);
    }
    for _ in 0..FEW {
        pair.step(random, tally);
    }
}

// A record of whole words, and then opened with more.
fn work(random: &mut Random, tally: &mut Tally) {
    let (data, pointers) = (random.below(9) as u16, random.below(9) as u16);
    let mut message = roots::Message::new_default();
    let mut pair = Pair::new(Builder { builder: roots::new_record(&mut message, data, pointers) }, random);
    tally.record(pair.same());
    for _ in 0..STEPS {
        pair.step(random, tally);
    }
    let short = pair.into_copy();
    let (more_data, more_pointers) = (random.below(9) as u16, random.below(9) as u16);
    let opened = roots::open_record(&mut message, data + more_data, pointers + more_pointers);
    work_opened(Builder { builder: opened }, &short, random, tally);
}

// A list whose elements are read as records, and then opened with more.
fn work_list(random: &mut Random, tally: &mut Tally) {
    let mut message = roots::Message::new_default();
    let filled = elements::fill(&mut message, random);
    for (reader, element) in elements::records(&message).into_iter().zip(&filled) {
        read_element(Reader { reader }, element, random, tally);
    }
    let opened = roots::open_elements(&mut message, random.below(9) as u16, random.below(9) as u16);
    for (builder, element) in opened.into_iter().zip(&filled) {
        work_opened(Builder { builder }, element, random, tally);
    }
}

fn main() {
    let mut args = std::env::args().skip(1);
    let operations: u64 = args.next().map_or(2_000_000, |a| a.parse().expect("a number of operations"));
    let seed: u64 = args.next().map_or(1, |a| a.parse().expect("a seed"));
    let mut random = Random::new(seed);
    let mut tally = Tally::default();
    while tally.operations < operations {
        work(&mut random, &mut tally);
        work_list(&mut random, &mut tally);
    }
    tally.print();
    if !tally.is_right() {
        std::process::exit(1);
    }
}
