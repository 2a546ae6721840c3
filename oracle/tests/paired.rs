//! The paired setter against request N9, and the verdicts of slots: worked cases with their texts written by hand, and the
//! getter's rule over generated sheets.

use oracle::answer::{answer, text_of_field, Request, State};
use oracle::context::context;
use oracle::generate::corners::{self, group, node, slot};
use oracle::generate::{self, full};
use oracle::paired::Apart;
use oracle::program::verdicts;
use oracle::random::Random;
use oracle::sheet::print::print;
use oracle::sheet::{value_width, Field, Node, Sheet, Slot, Type, ENUM, FLOAT32, FLOAT64};
use oracle::verdict::{verdict, Verdict};

const READER: Request = Request::Getter { reader: true, function: false };

const F32_MINUS_ZERO: u64 = 2_147_483_648;
const F64_MINUS_ZERO: u64 = 9_223_372_036_854_775_808;

/// A bed with one slot, and the enum of its status.
fn bed(slot: Slot) -> Sheet {
    Sheet::of(vec![node(1, 0, "bed", &[]).slots([slot]), node(9, 1, "bed::Status", &[])])
}

/// The text of a request on a slot, or the refusal's number.
fn text(slot: &Slot, request: Request) -> Result<String, u64> {
    let mut buffer = vec![0; 65_536];
    let fill = answer(&print(&bed(slot.clone())), 1, 0, request, State::flat(0), &mut buffer);
    let fill = fill.map_err(|refusal| refusal.number)?;
    Ok(String::from_utf8(buffer[..fill].to_vec()).expect("texts are UTF-8"))
}

/// The line that sets the value.
fn line(slot: &Slot, request: Request) -> Result<String, u64> {
    let text = text(slot, request)?;
    Ok(text.lines().nth_back(1).expect("a setter has three lines or more").trim_start().to_string())
}

fn paired(slot: &Slot) -> Result<String, u64> {
    line(slot, Request::PairedSetter)
}

fn said(line: &str) -> Result<String, u64> {
    Ok(line.to_string())
}

/// Both setters of the slot are one text or one refusal.
fn one(slot: &Slot) {
    assert_eq!(text(slot, Request::PairedSetter), text(slot, Request::Setter), "{slot:?}");
    assert_eq!(Apart::of_field(&Field::Slot(slot.clone())), None);
}

fn status(bits: u64, explicit: bool) -> Slot {
    slot("status", Type::Enum(9, Vec::new())).default(ENUM, bits, explicit)
}

fn float(kind: u8, bits: u64) -> Slot {
    slot("weight", Type::Plain(kind)).default(kind, bits, false)
}

#[test]
fn the_bed_status_is_masked_by_its_number() {
    let reserved = status(2, false);
    let expected = "#[inline]\npub fn set_status(&mut self, value: bed::Status)  {\n    \
        self.builder.set_data_field_mask::<u16>(4, value as u16, 2);\n}\n";
    assert_eq!(text(&reserved, Request::PairedSetter), said(expected));
    let present = "#[inline]\npub fn set_status(&mut self, value: bed::Status)  {\n    \
        self.builder.set_data_field::<u16>(4, value as u16);\n}\n";
    assert_eq!(text(&reserved, Request::Setter), said(present));
    let tagged = "#[inline]\npub fn set_status(&mut self, value: bed::Status)  {\n    \
        self.builder.set_data_field::<u16>(5, 3);\n    \
        self.builder.set_data_field_mask::<u16>(7, value as u16, 65535);\n}\n";
    assert_eq!(text(&status(65_535, false).tagged(3).at(7), Request::PairedSetter), said(tagged));
    one(&status(2, true));
    one(&status(0, false));
}

#[test]
fn minus_zero_is_a_mask_with_its_ending() {
    for explicit in [false, true] {
        let [single, double] = [(FLOAT32, F32_MINUS_ZERO), (FLOAT64, F64_MINUS_ZERO)]
            .map(|(kind, bits)| slot("weight", Type::Plain(kind)).default(kind, bits, explicit));
        assert_eq!(line(&single, Request::Setter), said("self.builder.set_data_field::<f32>(4, value);"));
        assert_eq!(paired(&single), said("self.builder.set_data_field_mask::<f32>(4, value, 2147483648u32);"));
        let mask = "self.builder.set_data_field_mask::<f64>(4, value, 9223372036854775808u64);";
        assert_eq!(line(&double, Request::Setter), said("self.builder.set_data_field::<f64>(4, value);"));
        assert_eq!(paired(&double), said(mask));
    }
    let signature = text(&float(FLOAT32, F32_MINUS_ZERO), Request::PairedSetter).expect("it is answered");
    assert!(signature.starts_with("#[inline]\npub fn set_weight(&mut self, value: f32)  {\n"));
}

#[test]
fn other_floats_keep_their_ending() {
    let mask = "self.builder.set_data_field_mask::<f32>(4, value, 1069547520u32);";
    assert_eq!(paired(&float(FLOAT32, 1_069_547_520)), said(mask));
    assert_eq!(paired(&float(FLOAT64, 0)), said("self.builder.set_data_field::<f64>(4, value);"));
    for bits in [0, 1, F32_MINUS_ZERO - 1, F32_MINUS_ZERO + 1, 2 * F32_MINUS_ZERO - 1] {
        one(&float(FLOAT32, bits));
    }
    for bits in [0, 1, F32_MINUS_ZERO, F64_MINUS_ZERO - 1, F64_MINUS_ZERO + 1, u64::MAX] {
        one(&float(FLOAT64, bits));
    }
}

#[test]
fn a_flagged_0_is_plain() {
    let free = status(0, true);
    let present = "self.builder.set_data_field_mask::<u16>(4, value as u16, 0);";
    assert_eq!(line(&free, Request::Setter), said(present));
    assert_eq!(paired(&free), said("self.builder.set_data_field::<u16>(4, value as u16);"));
}

#[test]
fn a_default_of_another_type_is_the_present_setters() {
    let of = |typ: Type, kind, bits, explicit| slot("weight", typ).default(kind, bits, explicit);
    let enumeration = |id| Type::Enum(id, Vec::new());
    let plain = |typ: &str| said(&format!("self.builder.set_data_field::<{typ}>(4, value);"));
    let cases = [
        (of(Type::Plain(FLOAT32), FLOAT64, F64_MINUS_ZERO, true), plain("f32")),
        (of(Type::Plain(FLOAT64), FLOAT32, F32_MINUS_ZERO, false), plain("f64")),
        (of(Type::Plain(1), 2, 3, false), said("self.builder.set_bool_field_mask(4, value, 3);")),
        (of(Type::Plain(7), ENUM, 2, false), Err(11)),
        (of(Type::Plain(FLOAT32), 12, 0, true), Err(11)),
        (of(Type::Plain(1), 0, 0, true), Err(11)),
        (of(enumeration(9), 7, 2, true), Err(12)),
        (of(enumeration(9), 7, 0, true), Err(12)),
        (of(enumeration(9), 7, 2, false), said("self.builder.set_data_field::<u16>(4, value as u16);")),
        (of(enumeration(77), 7, 2, true), Err(5)),
    ];
    for (slot, expected) in cases {
        assert_eq!(paired(&slot), expected, "{slot:?}");
        one(&slot);
    }
}

#[test]
fn an_enum_of_no_node_is_5_with_each_default() {
    for (bits, explicit) in [(2, false), (0, true), (0, false), (2, true)] {
        let lost = slot("status", Type::Enum(77, Vec::new())).default(ENUM, bits, explicit);
        assert_eq!((paired(&lost), line(&lost, Request::Setter)), (Err(5), Err(5)));
    }
}

#[test]
fn option_refuses_the_getter_and_not_the_paired_setter() {
    let flag = slot("isFree", Type::Plain(1)).default(1, 1, true).option();
    let reserved = status(2, false).option();
    let light = float(FLOAT32, F32_MINUS_ZERO).option();
    let free = status(0, true).option();
    assert!([&flag, &reserved, &light, &free].iter().all(|slot| text(slot, READER) == Err(9)));
    assert_eq!(paired(&flag), said("self.builder.set_bool_field_mask(4, value, true);"));
    assert_eq!(paired(&reserved), said("self.builder.set_data_field_mask::<u16>(4, value as u16, 2);"));
    assert_eq!(paired(&light), said("self.builder.set_data_field_mask::<f32>(4, value, 2147483648u32);"));
    assert_eq!(paired(&free), said("self.builder.set_data_field::<u16>(4, value as u16);"));
}

#[test]
fn void_and_pointers_have_the_present_setter() {
    let list = Type::List(Box::new(Type::Plain(FLOAT32)));
    let types = [Type::Plain(0), Type::Plain(12), Type::Plain(13), list, Type::Struct(1, vec![]), Type::AnyPointer]
        .into_iter()
        .chain([Type::Interface(1, vec![]), Type::Parameter { scope_id: 1, index: 0 }, Type::Struct(77, vec![])]);
    for typ in types {
        for (kind, bits, explicit) in [(typ.kind(), 0, true), (ENUM, 2, false), (FLOAT32, F32_MINUS_ZERO, false)] {
            one(&slot("ward", typ.clone()).default(kind, bits, explicit).tagged(1));
        }
    }
    let text = text(&slot("nothing", Type::Plain(0)), Request::PairedSetter);
    assert_eq!(text, said("#[inline]\npub fn set_nothing(&mut self, _value: ())  {\n}\n"));
}

#[test]
fn a_group_is_15() {
    let bed = node(1, 0, "bed", &[]).group(group("plan", 2));
    let bytes = print(&Sheet::of(vec![bed, node(2, 1, "bed::plan", &[]).slots([status(2, false)])]));
    let ask = |place| answer(&bytes, 1, place, Request::PairedSetter, State::flat(0), &mut [0; 99]);
    assert_eq!([ask(0), ask(1)].map(|answer| answer.unwrap_err().number), [15, 15]);
}

#[test]
fn lines_are_moved_in_and_refusals_keep_their_order() {
    let bytes = print(&bed(status(2, false)));
    let ask = |state, size| {
        let mut buffer = vec![7; size];
        let answer = answer(&bytes, 1, 0, Request::PairedSetter, state, &mut buffer);
        (answer.map_err(|refusal| refusal.number), buffer)
    };
    let expected = "        #[inline]\n        pub fn set_status(&mut self, value: bed::Status)  {\n            \
        self.builder.set_data_field_mask::<u16>(4, value as u16, 2);\n        }\n";
    let length = expected.len();
    let state = State { fill: 0, level: 2 };
    assert_eq!(ask(state, length), (Ok(length), expected.as_bytes().to_vec()));
    assert_eq!(ask(state, length - 1), (Err(22), vec![7; length - 1]));
    assert_eq!(ask(State { fill: 0, level: 9 }, 2).0, Err(36));
    assert_eq!(ask(State { fill: 3, level: 9 }, 2).0, Err(21));
}

/// The mask of a line, as it is written.
fn mask(line: &str) -> Option<&str> {
    let arguments = line.split_once("_mask")?.1.split_once(')')?.0;
    Some(arguments.rsplit_once(", ")?.1)
}

/// The paragraph's first sentence, over the fields of a sheet: where the default is of the slot's type, the paired setter has the
/// mask of the getter, which is asked as if there were no option, and a float's has its ending. How many slots there were.
fn by_the_getters_rule(sheet: &Sheet) -> u64 {
    let ctx = context(sheet);
    let mut count = 0;
    for node in &sheet.nodes {
        for field in &node.fields {
            let Field::Slot(slot) = field else { continue };
            let kind = slot.typ.kind();
            if value_width(kind) == 0 || slot.value.kind != kind {
                continue;
            }
            let paired = text_of_field(&ctx, node, field, Request::PairedSetter);
            let bare = Field::Slot(Slot { option: false, ..slot.clone() });
            let getter = text_of_field(&ctx, node, &bare, READER);
            assert_eq!(paired.as_ref().err(), getter.as_ref().err(), "{slot:?}");
            let (Ok(paired), Ok(getter)) = (paired, getter) else { continue };
            let get = getter.lines().nth(1).expect("a getter has two lines");
            let set = paired.lines().nth_back(1).expect("a setter has three lines");
            let expected = match kind {
                FLOAT32 => mask(get).map(|mask| mask.to_string() + "u32"),
                FLOAT64 => mask(get).map(|mask| mask.to_string() + "u64"),
                _ => mask(get).map(String::from),
            };
            assert_eq!(mask(set), expected.as_deref(), "{slot:?}");
            assert_eq!(expected.is_none(), slot.value.bits == 0);
            assert!(kind != ENUM || set.contains(", value as u16"));
            count += 1;
        }
    }
    count
}

#[test]
fn the_mask_is_the_getters() {
    let corners = corners::all().into_iter().chain(full::slots());
    let corners: u64 = corners.map(|corner| by_the_getters_rule(&corner.sheet)).sum();
    let random = &mut Random::new(45);
    let drawn: u64 = (0..4_000).map(|turn| by_the_getters_rule(&generate::sheet(random, turn).0)).sum();
    assert!(corners > 500 && drawn > 5_000, "{corners} of the corners, {drawn} drawn");
}

/// The verdict of a slot, over the bed's sheet.
fn told(slot: Slot) -> Option<Verdict> {
    let sheet = bed(slot);
    verdict(&context(&sheet), &sheet.nodes[0], &sheet.nodes[0].fields[0])
}

#[test]
fn worked_verdicts() {
    assert_eq!(told(slot("isFree", Type::Plain(1)).default(1, 1, true)), Some(Verdict::Agree));
    assert_eq!(told(slot("rank", Type::Plain(2)).default(2, 251, false)), Some(Verdict::Agree));
    assert_eq!(told(slot("beds", Type::Plain(9)).default(9, u64::MAX, true)), Some(Verdict::Agree));
    assert_eq!(told(status(2, false)), Some(Verdict::CombinedWithDefault));
    assert_eq!(told(status(65_535, false).tagged(2)), Some(Verdict::CombinedWithDefault));
    assert_eq!([status(2, true), status(0, true), status(0, false)].map(told), [Some(Verdict::Agree); 3]);
    assert_eq!(told(float(FLOAT32, F32_MINUS_ZERO)), Some(Verdict::SignFlipped));
    assert_eq!(told(float(FLOAT64, F64_MINUS_ZERO)), Some(Verdict::SignFlipped));
    let others = [float(FLOAT64, F32_MINUS_ZERO), float(FLOAT32, 1_069_547_520), float(FLOAT32, F32_MINUS_ZERO + 1)];
    assert_eq!(others.map(told), [Some(Verdict::Agree); 3]);
    let refused = [
        status(2, false).option(),
        slot("isFree", Type::Plain(1)).default(2, 3, false),
        slot("level", Type::Plain(7)).default(ENUM, 2, false),
        slot("status", Type::Enum(9, vec![])).default(7, 2, false),
        slot("status", Type::Enum(77, vec![])).default(ENUM, 2, false),
    ];
    assert_eq!(refused.map(told), [Some(Verdict::NotBothGenerated); 5]);
    let without_bits = [Type::Plain(0), Type::Plain(12), Type::Struct(1, vec![]), Type::AnyPointer];
    assert_eq!(without_bits.map(|typ| told(slot("ward", typ))), [None; 4]);
}

fn printed(nodes: Vec<Node>) -> String {
    String::from_utf8(verdicts(&print(&Sheet::of(nodes)))).expect("verdicts are UTF-8")
}

#[test]
fn the_program_prints_what_disagrees_first() {
    let bed = node(7, 0, "bed", &[]).slots([
        slot("isFree", Type::Plain(1)).default(1, 1, true),
        slot("wardName", Type::Plain(12)),
        status(2, false),
        slot("level", Type::Plain(7)).default(1, 1, true),
    ]);
    let other = node(u64::MAX, 7, "bed::plan", &[]).slots([
        slot("étatÄ", Type::Plain(FLOAT32)).default(FLOAT32, F32_MINUS_ZERO, true),
        slot("rank", Type::Plain(2)),
    ]);
    let expected = "node 7 status: combined with the default\nnode 18446744073709551615 étatÄ: sign flipped\n\
        node 7 isFree: agree\nnode 7 level: not both generated\nnode 18446744073709551615 rank: agree\n\
        5 slots, 2 disagree\n";
    assert_eq!(printed(vec![bed.group(group("plan", u64::MAX)), other, node(9, 7, "bed::Status", &[])]), expected);
    assert_eq!(printed(vec![node(1, 0, "bed", &[])]), "0 slots, 0 disagree\n");
    assert_eq!(printed(vec![node(1, 0, "bed", &[]).slots([slot("n", Type::Plain(0))])]), "0 slots, 0 disagree\n");
    assert_eq!(verdicts(b"x\n"), b"refused 2 line 1 column 1\n");
    assert_eq!(verdicts(&[b'R'; 65_537]), b"refused 1 line 0 column 0\n");
}
