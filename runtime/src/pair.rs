// A record in a message, and its copy: data bytes, and a byte for each pointer, which is 0 where the pointer is null.
use crate::accessors::{Builder, Kind};
use crate::elements::Element;
use crate::gets::{Get, Place};
use crate::kitlubas;
use crate::random::Random;
use crate::sets::Set;
use crate::tally::Tally;

pub struct Pair<'a> {
    record: Builder<'a>,
    section: Vec<u8>,
    pointers: Vec<u8>,
}

impl<'a> Pair<'a> {
    // A new record, filled at random.
    pub fn new(record: Builder<'a>, random: &mut Random) -> Pair<'a> {
        for at in 0..record.bytes().len() {
            record.set_data(Kind::Uint8, at, random.bits(1), None);
        }
        let mut pointers = vec![0; record.pointers()];
        for (at, flag) in pointers.iter_mut().enumerate() {
            if random.below(2) == 1 {
                record.set_pointer(at);
                *flag = 1;
            }
        }
        Pair { record, section: record.bytes().to_vec(), pointers }
    }

    // A record that was written short and opened with more: zeros stand behind what was written.
    pub fn opened(record: Builder<'a>, short: &Element) -> Pair<'a> {
        let (mut section, mut pointers) = (short.section.clone(), short.pointers.clone());
        section.resize(record.bytes().len(), 0);
        pointers.resize(record.pointers(), 0);
        Pair { record, section, pointers }
    }

    pub fn into_copy(self) -> Element {
        Element { section: self.section, pointers: self.pointers }
    }

    pub fn same(&self) -> bool {
        self.record.bytes() == &self.section[..]
            && self.pointers.iter().enumerate().all(|(at, flag)| self.record.is_null(at) == (*flag == 0))
    }

    // One operation on both.
    pub fn step(&mut self, random: &mut Random, tally: &mut Tally) {
        let is_right = match random.below(16) {
            0..=7 => self.get(random, tally),
            8..=14 => self.set(random),
            _ => self.at_no_width(random),
        };
        tally.count(is_right && self.same());
    }

    // The builder has no test of the length: past the end it is not asked.
    fn get(&self, random: &mut Random, tally: &mut Tally) -> bool {
        let get = Get::any(&self.section, &self.pointers, random);
        let bytes = get.choose(&self.section, &self.pointers);
        let place = get.place(bytes.len());
        tally.readers.count(get, place);
        let answer = get.of_reader(self.record.as_reader());
        let is_same = place != Place::Inside || get.of_builder(self.record) == answer;
        is_same && get.is_right_at_every_length(answer, bytes, &mut tally.library)
    }

    fn set(&mut self, random: &mut Random) -> bool {
        let set = Set::any(&self.section, &self.pointers, random);
        let bytes = set.choose(&mut self.section, &mut self.pointers);
        if set.is_inside(bytes.len()) {
            set.in_record(self.record);
        }
        set.is_right_at_every_length(bytes)
    }

    // The library refuses a width that no number has; the runtime has no such call.
    fn at_no_width(&mut self, random: &mut Random) -> bool {
        let width = [0, 3, 5, 6, 7, 9, 16, u32::MAX][random.below(8) as usize];
        let (offset, m) = (random.below(4) as u32, random.next());
        let mask = random.maybe(m);
        kitlubas::get_data(&self.section, width, offset, mask).is_none()
            && !kitlubas::set_data(&mut self.section, width, offset, m, mask)
    }

    // A get or a test by the builder of a record that was written short and opened with more: it finds what the library finds
    // in the short bytes. But of an element that ended in the middle of a slot it finds the bytes that were there.
    pub fn get_opened(&self, short: &Element, random: &mut Random, tally: &mut Tally) {
        let get = Get::any(&self.section, &self.pointers, random);
        let bytes = get.choose(&self.section, &self.pointers);
        if get.place(bytes.len()) != Place::Inside {
            return;
        }
        let written = get.choose(&short.section, &short.pointers);
        let place = get.place(written.len());
        tally.builders.count(get, place);
        let answer = get.of_builder(self.record);
        let found = if place == Place::Split { bytes } else { written };
        let is_right = get.is_right_at_every_length(answer, found, &mut tally.library);
        tally.count(is_right && answer == get.of_reader(self.record.as_reader()) && self.same());
    }
}
