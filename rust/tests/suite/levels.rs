//! Levels of indentation: a text at a level is the text at level 0 with the level's spaces in front of each line.

use crate::common::{ask, file, levels, requests, sheet, text, Told};
use kitlubas::{Asked, Form, Leaf, Level, Lifetime, NodeId, Place, Request, Sheet, Side};
use std::fs;

/// A bed with a flag, a Text of a union that has a default and is an option, a struct, an enum and a Void slot; with a group of
/// which there is something to zero, and with an empty one.
const BED: &str = "\
R ::capnp
N 7 0 0 1 0 2 3 bed
F 3 65535 1 0 isFree
T 1 0 0 0
V 1 1
F 0 1 1 1 wardName
T 12 0 0 0
V 12 0
W 146028888065
W 6579554
F 1 65535 0 0 nextBed
T 16 7 0 0
V 16 0
F 4 65535 0 0 status
T 15 9 0 0
V 15 2
F 0 65535 0 0 nothing
T 0 0 0 0
V 0 0
G 8 65535 stay
G 10 65535 empty
N 8 7 0 1 0 2 9 bed::stay
F 5 0 0 0 nights
T 7 0 0 0
V 7 0
F 2 1 0 0 doctor
T 12 0 0 0
V 12 0
N 9 0 0 0 0 0 0 Status
N 10 7 0 1 0 0 0 bed::empty
";

/// The places of node 7's fields.
const IS_FREE: u64 = 0;
const WARD_NAME: u64 = 1;
const NEXT_BED: u64 = 2;
const STATUS: u64 = 3;
const NOTHING: u64 = 4;
const STAY: u64 = 5;
const EMPTY: u64 = 6;

/// More bytes than any text here has.
const ROOM: usize = 4096;

/// The text of no lines.
const NO_LINES: &str = "\n";

fn at_level(number: u8, request: Request) -> Asked {
    request.at(Level::new(number).expect("there is such a level"))
}

/// A text moved in: a type's text ends without a newline, and the text of no lines stays.
fn moved_in(text: &str, level: Level) -> String {
    if text == NO_LINES {
        return text.into();
    }
    let margin = "    ".repeat(level.get().into());
    text.split_inclusive('\n').flat_map(|line| [&margin, line]).collect()
}

/// The lines of the bed's text at a level.
fn lines(place: u64, asked: Asked) -> Vec<String> {
    let text = text(&sheet(BED), (7, place), asked).expect("the request is answered");
    text.strip_suffix('\n').expect("the last line ends").split('\n').map(String::from).collect()
}

#[test]
fn the_levels() {
    assert_eq!(levels().map(Level::get).collect::<Vec<u8>>(), [0, 1, 2, 3, 4, 5, 6, 7, 8]);
    assert_eq!(levels().last(), Some(Level::MOST));
    assert!((9..=u8::MAX).all(|number| Level::new(number).is_none()));
    assert_eq!(levels().next(), Some(Level::default()));
    assert_eq!(Asked::from(Request::Setter), at_level(0, Request::Setter));
}

/// Holds each text of a sheet at each level against the one at level 0, from a field, from the sheet and from bytes; what is
/// refused is refused at each level. Gives the number of texts.
fn texts_at_every_level(bytes: &[u8]) -> usize {
    let admitted = Sheet::admit(bytes).expect("it is a sheet");
    let mut texts = 0;
    for (node, field) in admitted.nodes().flat_map(|node| node.fields().map(move |field| (node.id().0, field))) {
        let at = (node, field.place().0);
        for request in requests().into_iter().chain([Request::Zeroing]) {
            let plain = ask(bytes, at, request, ROOM, 3);
            texts += usize::from(plain.is_ok());
            for level in levels() {
                let expected = plain.as_ref().map(|text| moved_in(text, level)).map_err(|told| *told);
                assert_eq!(ask(bytes, at, request.at(level), ROOM, 3), expected, "{request:?}");
                assert_eq!(field.text(request.at(level)).ok(), expected.ok());
            }
        }
    }
    texts
}

/// Of the bed's seven slots everything but a zeroing, and of its two groups the zeroing.
#[test]
fn every_text_at_every_level() {
    assert_eq!(texts_at_every_level(&sheet(BED)), 7 * 18 + 2);
}

/// Slots of each type, as they are in the example and as those of a union. Of two, whose type is a parameter, four leaves have no
/// text.
#[test]
fn every_type_at_every_level() {
    let ward = fs::read_to_string(file("examples/short/ward.txt")).expect("an example");
    for short in [&ward, &ward.replace(" 65535 ", " 1 ")] {
        assert_eq!(texts_at_every_level(&sheet(short)), 22 * 18 - 2 * 4);
    }
}

/// Of four groups two are refused.
#[test]
fn groups_inside_groups_at_every_level() {
    let bytes = fs::read(file("examples/groups.sheet")).expect("an example sheet");
    assert_eq!(texts_at_every_level(&bytes), 8 * 18 + 2);
}

/// A text that is just as long as the free part fits with its spaces, and one byte less is 22.
#[test]
fn room_for_the_spaces() {
    const NO_ROOM: Result<String, Told> = Err((22, None));
    let bytes = sheet(BED);
    for place in IS_FREE..=EMPTY {
        for request in requests().into_iter().chain([Request::Zeroing]) {
            for asked in levels().map(|level| request.at(level)) {
                let Ok(whole) = text(&bytes, (7, place), asked) else { continue };
                for fill in [0, 7] {
                    assert_eq!(ask(&bytes, (7, place), asked, fill + whole.len(), fill), Ok(whole.clone()));
                    assert_eq!(ask(&bytes, (7, place), asked, fill + whole.len() - 1, fill), NO_ROOM);
                }
            }
        }
    }
}

/// Without lines nothing is moved in: the haser of a slot that is no pointer, and the zeroing of nothing.
#[test]
fn a_text_of_no_lines_stays() {
    let bytes = sheet(BED);
    for level in levels() {
        for haser in [Side::Reader, Side::Builder].map(|side| Request::Haser { side }.at(level)) {
            for place in [IS_FREE, STATUS, NOTHING] {
                assert_eq!(text(&bytes, (7, place), haser), Ok(NO_LINES.into()));
            }
        }
        assert_eq!(text(&bytes, (7, EMPTY), Request::Zeroing.at(level)), Ok(NO_LINES.into()));
    }
}

/// A Void slot's getter as a function has two empty lines, its result type's and its code's, and both are moved in.
#[test]
fn empty_lines_are_moved_in() {
    for side in [Side::Reader, Side::Builder] {
        let getter = |form| Request::Getter { side, form };
        assert_eq!(lines(NOTHING, at_level(1, getter(Form::Function))), ["    ", "    "]);
        assert_eq!(lines(NOTHING, at_level(1, getter(Form::Plain))), ["    ()", "    ()"]);
    }
}

#[test]
fn a_type_is_moved_in() {
    let bytes = sheet(BED);
    let typ = |place, leaf| text(&bytes, (7, place), at_level(2, Request::TypeText(leaf))).expect("there is a text");
    assert_eq!(typ(IS_FREE, Leaf::Owned), "        bool");
    assert_eq!(typ(NEXT_BED, Leaf::Reader(Lifetime::Anonymous)), "        bed::Reader<'_>");
    assert_eq!(typ(STATUS, Leaf::Owned), "        Status");
}

/// The result type, the code of an option and the declaration of the default.
#[test]
fn a_getter_with_its_default() {
    let getter = Request::Getter { side: Side::Reader, form: Form::Function };
    let expected = [
        "    -> ::capnp::Result<Option<::capnp::text::Reader<'a>>>",
        "    if self.reader.is_pointer_field_null(0) {",
        "        core::result::Result::Ok(core::option::Option::None)",
        "    } else {",
        "        ::capnp::traits::FromPointerReader::get_from_pointer(&self.reader.get_pointer_field(0), \
         ::core::option::Option::Some(&_private::DEFAULT_WARD_NAME[..])).map(::core::option::Option::Some)",
        "    }",
        "    pub(crate) static DEFAULT_WARD_NAME: [::capnp::Word; 2] = [",
        "        ::capnp::word(1, 0, 0, 0, 34, 0, 0, 0),",
        "        ::capnp::word(98, 101, 100, 0, 0, 0, 0, 0),",
        "    ];",
    ];
    assert_eq!(lines(WARD_NAME, at_level(1, getter)), expected);
}

/// The setter and the initializer of a slot of a union, each with the line of the tag.
#[test]
fn a_setter_with_its_tag() {
    let expected = [
        "        #[inline]",
        "        pub fn set_ward_name(&mut self, value: impl ::capnp::traits::SetterInput<::capnp::text::Owned>)  {",
        "            self.builder.set_data_field::<u16>(3, 1);",
        "            ::capnp::traits::SetterInput::set_pointer_builder(self.builder.reborrow().get_pointer_field(0), \
         value, false).unwrap()",
        "        }",
        "        #[inline]",
        "        pub fn init_ward_name(self, size: u32) -> ::capnp::text::Builder<'a> {",
        "            self.builder.set_data_field::<u16>(3, 1);",
        "            self.builder.get_pointer_field(0).init_text(size)",
        "        }",
    ];
    assert_eq!(lines(WARD_NAME, at_level(2, Request::Setter)), expected);
}

#[test]
fn a_haser_and_a_zeroing_at_the_highest_level() {
    let margin = " ".repeat(32);
    let haser = [
        "#[inline]",
        "pub fn has_ward_name(&self) -> bool {",
        "    if self.builder.get_data_field::<u16>(3) != 1 { return false; }",
        "    !self.builder.is_pointer_field_null(0)",
        "}",
    ];
    let zeroing = [
        "self.builder.set_data_field::<u16>(9, 0);",
        "self.builder.set_data_field::<u16>(5, 0u16);",
        "self.builder.reborrow().get_pointer_field(2).clear();",
    ];
    let inside = |lines: &[&str]| lines.iter().map(|line| format!("{margin}{line}")).collect::<Vec<String>>();
    let builder = Request::Haser { side: Side::Builder };
    assert_eq!(lines(WARD_NAME, builder.at(Level::MOST)), inside(&haser));
    assert_eq!(lines(STAY, Request::Zeroing.at(Level::MOST)), inside(&zeroing));
}

/// Texts at several levels, put one behind the other.
#[test]
fn texts_behind_each_other_at_several_levels() {
    let bytes = sheet(BED);
    let admitted = Sheet::admit(&bytes).expect("it is a sheet");
    let field = admitted.node(NodeId(7)).and_then(|node| node.field(Place(NEXT_BED))).expect("there is a field");
    let setter = field.text(Request::Setter).expect("there is a setter");
    let mut out = Vec::new();
    for level in levels() {
        field.write_text(Request::Setter.at(level), &mut out).expect("there is a setter");
    }
    let expected: String = levels().map(|level| moved_in(&setter, level)).collect();
    assert_eq!(String::from_utf8(out).expect("texts are UTF-8"), expected);
}
