//! Requests against document 01, its worked cases, its example and each of its refusals, and against request N14.

use oracle::answer::{answer, Request, State};
use oracle::codegen::exact;
use oracle::generate::corners::{self, group, node, slot};
use oracle::generate::hostile;
use oracle::names::default_name;
use oracle::program::accessors;
use oracle::sheet::print::print;
use oracle::sheet::read::{read, Refusal};
use oracle::sheet::{Binding, Node, Scope, Sheet, Slot, Type};

const READER: Request = Request::Getter { reader: true, function: false };
const BUILDER: Request = Request::Getter { reader: false, function: false };
const READER_FUNCTION: Request = Request::Getter { reader: true, function: true };
const HASER: Request = Request::Haser { reader: true };

fn sheet(nodes: Vec<Node>) -> Vec<u8> {
    print(&Sheet::of(nodes))
}

/// The text of a request on place 0 of the node 1, or its refusal.
fn asked(bytes: &[u8], place: u64, request: Request) -> Result<String, Refusal> {
    let mut buffer = vec![0; 65_536];
    let fill = answer(bytes, 1, place, request, State::flat(0), &mut buffer)?;
    Ok(String::from_utf8(buffer[..fill].to_vec()).expect("texts are UTF-8"))
}

/// The lines of the text that a node with one slot gives.
fn text(slot: Slot, request: Request) -> Result<Vec<String>, u64> {
    let nodes = vec![node(1, 0, "bed", &[]).slots([slot]), node(9, 0, "ward", &["T"])];
    let text = asked(&sheet(nodes), 0, request).map_err(|refusal| refusal.number)?;
    Ok(text.split('\n').map(String::from).collect())
}

fn lines(slot: Slot, request: Request) -> Vec<String> {
    text(slot, request).expect("the request is answered")
}

#[test]
fn the_example_is_printed_whole() {
    let slot = slot("isFree", Type::Plain(1)).at(3).default(1, 1, true);
    let mut bed = node(7, 0, "bed", &[]).slots([slot]);
    bed.tag_offset = 0;
    let expected = "# getter reader isFree\nbool\nself.reader.get_bool_field_mask(3, true)\n\
        # getter builder isFree\nbool\nself.builder.get_bool_field_mask(3, true)\n\
        # setter isFree\n#[inline]\npub fn set_is_free(&mut self, value: bool)  {\n    \
        self.builder.set_bool_field_mask(3, value, true);\n}\n\
        # haser reader isFree\n\n# haser builder isFree\n\n";
    assert_eq!(String::from_utf8(accessors(&sheet(vec![bed]))).unwrap(), expected);
}

#[test]
fn names() {
    assert_eq!(exact::camel_to_snake_case("bedId"), "bed_id");
    assert_eq!(exact::camel_to_snake_case("HTTPCode"), "h_t_t_p_code");
    assert_eq!(default_name("wardName"), "DEFAULT_WARD_NAME");
    assert_eq!(exact::module_name("type"), "type_");
}

#[test]
fn an_int8_of_minus_five_is_masked_on_both_ways() {
    let slot = slot("rank", Type::Plain(2)).at(2).default(2, 251, false);
    assert_eq!(lines(slot.clone(), READER), ["i8", "self.reader.get_data_field_mask::<i8>(2, -5)", ""]);
    let setter = lines(slot, Request::Setter);
    assert_eq!(setter[2], "    self.builder.set_data_field_mask::<i8>(2, value, -5);");
}

#[test]
fn floats_are_masked_by_their_bits() {
    let float = |bits| slot("weight", Type::Plain(10)).default(10, bits, true);
    assert_eq!(lines(float(1069547520), READER)[1], "self.reader.get_data_field_mask::<f32>(4, 1069547520)");
    let setter = lines(float(1069547520), Request::Setter);
    assert_eq!(setter[2], "    self.builder.set_data_field_mask::<f32>(4, value, 1069547520u32);");
    // -0.0: the setter is plain, the getter masks.
    assert_eq!(lines(float(2147483648), READER)[1], "self.reader.get_data_field_mask::<f32>(4, 2147483648)");
    assert_eq!(lines(float(2147483648), Request::Setter)[2], "    self.builder.set_data_field::<f32>(4, value);");
}

#[test]
fn an_enums_setter_looks_at_the_flag_and_its_getter_at_the_number() {
    let status = |bits, explicit| slot("status", Type::Enum(9, vec![])).default(15, bits, explicit);
    let getter = "::core::convert::TryFrom::try_from(self.reader.get_data_field";
    assert_eq!(lines(status(2, false), READER)[1], format!("{getter}_mask::<u16>(4, 2))"));
    assert_eq!(lines(status(2, false), Request::Setter)[2], "    self.builder.set_data_field::<u16>(4, value as u16);");
    assert_eq!(lines(status(0, true), READER)[1], format!("{getter}::<u16>(4))"));
    let setter = lines(status(0, true), Request::Setter);
    assert_eq!(setter[2], "    self.builder.set_data_field_mask::<u16>(4, value as u16, 0);");
}

#[test]
fn corners_of_texts() {
    assert_eq!(lines(slot("nothing", Type::Plain(0)), READER_FUNCTION), ["", "", ""]);
    assert_eq!(lines(slot("isFree", Type::Plain(1)), HASER), ["", ""]);
    let initializer = lines(slot("ward", Type::Struct(9, vec![])), Request::Setter);
    assert!(initializer.iter().any(|line| line.contains("init_ward(self, ) -> ward::Builder<'a,")));
    let option = lines(slot("wardName", Type::Plain(12)).option(), BUILDER);
    assert_eq!(option[2], "    core::result::Result::Ok(core::option::Option::None)");
    let masked = slot("isFree", Type::Plain(1)).default(2, 3, true);
    assert_eq!(lines(masked.clone(), Request::Setter)[2], "    self.builder.set_bool_field_mask(4, value, 3);");
    assert_eq!(text(masked, READER), Err(10));
    let words = lines(slot("wardName", Type::Plain(12)).default(12, 0, true), READER);
    assert_eq!(words[2], "pub(crate) static DEFAULT_WARD_NAME: [::capnp::Word; 2] = [");
    assert_eq!(words[3], "    ::capnp::word(0, 1, 2, 3, 4, 5, 6, 7),");
}

/// The name of a slot in all its texts, and in headers as the sheet has it.
#[test]
fn names_with_accents() {
    let state = slot("étatÄ", Type::Plain(12)).default(12, 0, true);
    let setter = lines(state.clone(), Request::Setter);
    assert!(setter[1].starts_with("pub fn set_état_Ä(&mut self, value: "));
    assert!(setter[5].starts_with("pub fn init_état_Ä(self, size: u32) -> "));
    assert_eq!(lines(state.clone(), HASER)[1], "pub fn has_état_Ä(&self) -> bool {");
    let getter = lines(state, READER);
    assert!(getter[1].contains("::DEFAULT_éTAT_Ä[..]"));
    assert_eq!(getter[2], "pub(crate) static DEFAULT_éTAT_Ä: [::capnp::Word; 2] = [");
    let bed = node(1, 0, "bed", &[]).slots([slot("straßeNr", Type::Plain(1))]).group(group("Übergabe", 2));
    let printed = String::from_utf8(accessors(&sheet(vec![bed]))).expect("texts are UTF-8");
    assert!(printed.contains("# setter straßeNr\n#[inline]\npub fn set_straße_nr(&mut self, value: bool)  {\n"));
    assert!(printed.ends_with("# zero Übergabe\nrefused 5\n"));
}

#[test]
fn get_type_keeps_its_colons() {
    let bed = node(1, 0, "bed", &[]).slots([slot("next", Type::Struct(1, vec![]))]);
    assert_eq!(asked(&sheet(vec![bed]), 0, Request::Type { leaf: 9 }), Ok("bed::get_type::".to_string()));
}

#[test]
fn repeats_are_dropped_inside_one_group() {
    let same = || [slot("a", Type::Plain(7)), slot("b", Type::Enum(9, vec![]))];
    let mut tagged = node(2, 1, "bed::place", &[]).slots(same());
    (tagged.tag_count, tagged.tag_offset) = (2, 4);
    let bytes = sheet(vec![node(1, 0, "bed", &[]).group(group("place", 2)), tagged]);
    let expected = "self.builder.set_data_field::<u16>(4, 0);\nself.builder.set_data_field::<u16>(4, 0u16);\n";
    assert_eq!(asked(&bytes, 0, Request::Zero), Ok(expected.to_string()));
}

/// The answers of a corner's first struct slot, or first group.
fn corner(name: &str, request: Request) -> Result<String, u64> {
    let corner = corners::all().into_iter().find(|corner| corner.name == name).expect("there is such a corner");
    let (node, place) = match request {
        Request::Zero => (1, 1),
        _ => (100, 4),
    };
    let mut buffer = vec![0; 65_536];
    let fill = answer(&print(&corner.sheet), node, place, request, State::flat(0), &mut buffer)
        .map_err(|refusal| refusal.number)?;
    Ok(String::from_utf8(buffer[..fill].to_vec()).expect("texts are UTF-8"))
}

#[test]
fn the_17th_of_a_chain_and_of_groups_is_4_before_it_is_5() {
    let owned = Request::Type { leaf: 4 };
    assert!(corner("a chain of 16", owned).is_ok());
    assert_eq!(corner("a chain of 17", owned), Err(4));
    assert_eq!(corner("a chain of 15 that ends at a missing node", owned), Err(5));
    assert_eq!(corner("a chain of 16 that ends at a missing node", owned), Err(4));
    assert_eq!(corner("parents in a cycle of 1", owned), Err(4));
    assert_eq!(corner("parents in a cycle of 16", owned), Err(4));
    assert!(corner("16 groups inside each other", Request::Zero).is_ok());
    assert_eq!(corner("17 groups inside each other", Request::Zero), Err(4));
    assert_eq!(corner("15 groups inside each other, the last missing", Request::Zero), Err(5));
    assert_eq!(corner("16 groups inside each other, the last missing", Request::Zero), Err(4));
}

#[test]
fn each_refusal_of_a_request() {
    let any_list = || Type::List(Box::new(Type::AnyPointer));
    let parameter = |scope_id, index| Type::Parameter { scope_id, index };
    let leaf = |leaf| Request::Type { leaf };
    assert_eq!(text(slot("a", Type::Struct(77, vec![])), READER), Err(5));
    assert_eq!(text(slot("a", any_list()), READER), Err(6));
    assert_eq!(text(slot("a", Type::List(Box::new(parameter(77, 0)))), READER), Err(6));
    assert_eq!(text(slot("a", parameter(9, 0)), leaf(5)), Err(7));
    assert_eq!(text(slot("a", parameter(9, 1)), leaf(5)), Err(13));
    assert_eq!(text(slot("a", parameter(77, 1)), leaf(5)), Err(5));
    let unequal = Scope { id: 9, bindings: Some(vec![Binding::Unbound; 2]) };
    assert_eq!(text(slot("a", Type::Struct(9, vec![unequal])), READER), Err(8));
    assert_eq!(text(slot("a", Type::Plain(1)).option(), READER), Err(9));
    assert_eq!(text(slot("a", Type::Interface(9, vec![])).option(), READER), Err(9));
    assert_eq!(text(slot("a", Type::Plain(1)).default(12, 0, false), READER), Err(10));
    assert_eq!(text(slot("a", Type::Plain(3)).default(15, 0, false), Request::Setter), Err(11));
    assert_eq!(text(slot("a", Type::Enum(9, vec![])).default(3, 0, true), Request::Setter), Err(12));
    assert_eq!(text(slot("a", Type::Enum(77, vec![])).default(3, 0, true), Request::Setter), Err(5));
    assert_eq!(text(slot("a", Type::Plain(1)), leaf(10)), Err(15));
    assert_eq!(text(slot("a", Type::Plain(1)), Request::Zero), Err(15));
}

#[test]
fn each_refusal_of_a_group() {
    let mut other = node(2, 1, "bed::other", &[]);
    other.is_struct = false;
    let bed = node(1, 0, "bed", &[]).group(group("other", 2)).group(group("missing", 77));
    let bytes = sheet(vec![bed, other]);
    let refused = |place, request| asked(&bytes, place, request).unwrap_err().number;
    assert_eq!(refused(0, Request::Zero), 14);
    assert_eq!(refused(1, Request::Zero), 5);
    assert_eq!(refused(2, Request::Zero), 15);
    assert_eq!(refused(0, Request::Setter), 15);
    assert_eq!(refused(0, Request::Type { leaf: 0 }), 15);
}

#[test]
fn a_buffer_is_changed_by_a_text_only() {
    let bytes = sheet(vec![node(1, 0, "bed", &[]).slots([slot("isFree", Type::Plain(1))])]);
    let ask = |bytes: &[u8], place, length, fill| {
        let mut buffer = vec![7; length];
        let answer = answer(bytes, 1, place, Request::Type { leaf: 0 }, State::flat(fill), &mut buffer);
        (answer.map_err(|refusal| refusal.number), buffer)
    };
    assert_eq!(ask(&bytes, 0, 6, 1), (Ok(5), b"\x07bool\x07".to_vec()));
    assert_eq!(ask(&bytes, 0, 4, 0), (Ok(4), b"bool".to_vec()));
    assert_eq!(ask(&bytes, 0, 4, 1), (Err(22), vec![7; 4]));
    assert_eq!(ask(&bytes, 0, 4, 5), (Err(21), vec![7; 4]));
    assert_eq!(ask(&[b'x'; 65_537], 0, 4, 5), (Err(21), vec![7; 4]));
    assert_eq!(ask(&[b'x'; 65_537], 0, 4, 0), (Err(1), vec![7; 4]));
    assert_eq!(ask(b"x\n", 9, 4, 0), (Err(2), vec![7; 4]));
    assert_eq!(ask(&bytes, 9, 0, 0), (Err(15), vec![]));
}

/// Request N14: texts at a level of indentation, with the lines written by hand.
#[test]
fn lines_are_moved_in_by_their_level() {
    let slots = [
        slot("nothing", Type::Plain(0)),
        slot("isFree", Type::Plain(1)).default(1, 1, true),
        slot("wardName", Type::Plain(12)).default(12, 0, true),
    ];
    let slots = slots.into_iter().chain([slot("ward", Type::Struct(1, vec![])).option()]);
    let bed = node(1, 0, "bed", &[]).slots(slots).group(group("none", 2)).group(group("plan", 3));
    let day = node(3, 0, "bed::plan", &[]).slots([slot("day", Type::Plain(7))]);
    let bytes = sheet(vec![bed, node(2, 0, "bed::none", &[]), day]);
    let at = |place, request, level| {
        let mut buffer = vec![0; 65_536];
        let fill = answer(&bytes, 1, place, request, State { fill: 0, level }, &mut buffer).expect("a text");
        String::from_utf8(buffer[..fill].to_vec()).expect("texts are UTF-8")
    };
    assert_eq!(at(0, READER_FUNCTION, 1), "    \n    \n");
    assert_eq!(at(1, HASER, 3), "\n");
    assert_eq!(at(4, Request::Zero, 8), "\n");
    assert_eq!(at(5, Request::Zero, 1), "    self.builder.set_data_field::<u16>(4, 0u16);\n");
    assert_eq!(at(1, Request::Type { leaf: 0 }, 2), "        bool");
    assert_eq!(
        at(1, Request::Setter, 1),
        "    #[inline]\n    pub fn set_is_free(&mut self, value: bool)  {\n        \
         self.builder.set_bool_field_mask(4, value, true);\n    }\n"
    );
    assert_eq!(
        at(2, READER, 1),
        "    ::capnp::Result<::capnp::text::Reader<'a>>\n    ::capnp::traits::FromPointerReader::get_from_pointer(\
         &self.reader.get_pointer_field(4), ::core::option::Option::Some(&_private::DEFAULT_WARD_NAME[..]))\n    \
         pub(crate) static DEFAULT_WARD_NAME: [::capnp::Word; 2] = [\n        \
         ::capnp::word(0, 1, 2, 3, 4, 5, 6, 7),\n        \
         ::capnp::word(255, 255, 255, 255, 255, 255, 255, 255),\n    ];\n"
    );
    let margins = |text: &str| text.lines().map(|line| line.len() - line.trim_start().len()).collect::<Vec<_>>();
    assert_eq!(margins(&at(3, READER, 0)), [0, 0, 4, 0, 4, 0]);
    assert_eq!(margins(&at(3, READER, 8)), [32, 32, 36, 32, 36, 32]);
}

/// 36 is a level above 8: directly after 21, and before the sheet is looked at.
#[test]
fn a_level_above_8_is_36() {
    let bytes = sheet(vec![node(1, 0, "bed", &[]).slots([slot("isFree", Type::Plain(1))])]);
    let ask = |bytes: &[u8], place, fill, level| {
        let mut buffer = [7; 36];
        let state = State { fill, level };
        let answer = answer(bytes, 1, place, Request::Type { leaf: 0 }, state, &mut buffer);
        let refused = answer.map_err(|refusal| refusal.number);
        assert!(refused.is_ok() || buffer == [7; 36]);
        refused
    };
    assert_eq!(ask(&bytes, 0, 0, 8), Ok(36));
    assert_eq!(ask(&bytes, 0, 1, 8), Err(22));
    assert_eq!(ask(&bytes, 0, 0, 9), Err(36));
    assert_eq!(ask(&bytes, 0, 36, usize::MAX), Err(36));
    assert_eq!(ask(&bytes, 0, 37, 9), Err(21));
    assert_eq!(ask(&bytes, 9, 0, 9), Err(36));
    assert_eq!(ask(&[b'x'; 65_537], 0, 0, 9), Err(36));
    assert_eq!(ask(b"x\n", 0, 0, 9), Err(36));
    assert_eq!(ask(b"x\n", 0, 37, 9), Err(21));
}

#[test]
fn corners_are_admitted() {
    for corner in corners::all().into_iter().chain(hostile::all()) {
        let admitted = read(&print(&corner.sheet));
        assert_eq!(admitted.as_ref().err(), None, "{}", corner.name);
        assert!(admitted.as_ref() == Ok(&corner.sheet), "{}", corner.name);
    }
}
