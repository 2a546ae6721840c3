//! Names with letters that have accents: from the sheet to the texts and to the name helpers, and what is no such name.

use crate::common::{ask, file, sheet, told, Told};
use crate::raw::{default_name, module_name, snake};
use kitlubas::{admit, Form, NodeId, Place, Request, Sheet, Side};
use std::fs;

const READER: Request = Request::Getter { side: Side::Reader, form: Form::Plain };

/// A bed with a flag, a Text with a default and a group.
const BED: &str = "\
R ::capnp
N 7 0 0 1 0 0 0 bed
F 3 65535 1 0 möbelÄnderung
T 1 0 0 0
V 1 1
F 0 65535 1 0 étatÄ
T 12 0 0 0
V 12 0
W 146028888065
W 6579554
G 8 65535 Übergabe
";

/// The letters from U+00C0 to U+00DE and from U+00DF to U+00FF, without the signs U+00D7 and U+00F7.
const CAPITALS: &str = "ÀÁÂÃÄÅÆÇÈÉÊËÌÍÎÏÐÑÒÓÔÕÖØÙÚÛÜÝÞ";
const SMALL: &str = "ßàáâãäåæçèéêëìíîïðñòóôõöøùúûüýþÿ";

/// What is no such letter: torn pairs and lone halves, the two signs, U+00BF and U+0100, Latin-1, forms that are too long, and
/// combining marks.
const NO_LETTERS: [&[u8]; 14] = [
    b"\xc3",
    b"\x84",
    b"\x84\xc3",
    b"\xc3\xc3\x84",
    b"\xc3\x84\x84",
    b"\xc3\x97",
    b"\xc3\xb7",
    b"\xc2\xbf",
    b"\xc4\x80",
    b"\xe4",
    b"\xc1\x81",
    b"\xe0\x83\x84",
    b"A\xcc\x88",
    b"\xc3\x84\xcc\x80",
];

/// The answers to the sheets of a name that is none, for a slot and for a group.
const AT_THE_NAME: [Result<(), Told>; 2] = [Err((17, Some((3, 87)))), Err((17, Some((3, 45))))];

/// A sheet whose field on line 3 has a name of any bytes: a slot's, or a group's.
fn named(name: &[u8]) -> [Vec<u8>; 2] {
    let start = sheet("R ::capnp\nN 7 0 0 1 0 0 0 bed\n");
    let slot = [&sheet("F 3 65535 0 0 x")[..], b"\n", &sheet("T 1 0 0 0\nV 1 0\n")].concat();
    let group = sheet("G 8 65535 x\n");
    [slot, group].map(|lines| {
        let at = lines.iter().position(|&byte| byte == b'x').expect("the name is there");
        [&start[..], &lines[..at], name, &lines[at + 1..]].concat()
    })
}

#[test]
fn the_fields_of_a_sheet() {
    let bytes = sheet(BED);
    let admitted = Sheet::admit(&bytes).expect("it is a sheet");
    let node = admitted.node(NodeId(7)).expect("there is a node 7");
    let names: Vec<(&str, String)> = node.fields().map(|field| (field.name(), field.styled_name())).collect();
    let expected = [("möbelÄnderung", "möbel_Änderung"), ("étatÄ", "état_Ä"), ("Übergabe", "Übergabe")];
    assert_eq!(names, expected.map(|(name, styled)| (name, styled.to_string())));
}

#[test]
fn the_texts_of_a_field() {
    let bytes = sheet(BED);
    let text = |place, request| ask(&bytes, (7, place), request, 2000, 3).expect("there is a text");
    let setter = text(0, Request::Setter);
    assert!(setter.starts_with("#[inline]\npub fn set_möbel_Änderung(&mut self, value: bool)  {\n"));
    let setter = text(1, Request::Setter);
    assert!(setter.contains("pub fn set_état_Ä(&mut self, ") && setter.contains("pub fn init_état_Ä(self, size: u32)"));
    for side in [Side::Reader, Side::Builder] {
        assert!(text(1, Request::Haser { side }).contains("pub fn has_état_Ä(&self) -> bool {\n"));
    }
    let getter = text(1, READER);
    assert!(getter.contains("_private::DEFAULT_éTAT_Ä[..]"));
    assert!(getter.contains("\npub(crate) static DEFAULT_éTAT_Ä: [::capnp::Word; 2] = [\n"));
}

/// The example's output has each name as the sheet has it in headers, and nothing of it is refused.
#[test]
fn the_headers_of_the_example() {
    let bytes = fs::read(file("examples/accents.sheet")).expect("an example sheet");
    let output = fs::read_to_string(file("examples/accents.out")).expect("an example has its output");
    let admitted = Sheet::admit(&bytes).expect("it is a sheet");
    for field in admitted.nodes().flat_map(|node| node.fields()) {
        assert!(output.lines().any(|line| line.starts_with("# ") && line.ends_with(&format!(" {}", field.name()))));
    }
    assert!(!output.contains("refused"));
}

/// The bound of a name is one of bytes.
#[test]
fn names_of_64_bytes() {
    let ascii = |count: usize| "n".repeat(count);
    let longest = [SMALL.to_string(), "É".repeat(32), ascii(62) + "é", "Ä".to_string() + &ascii(62)];
    for name in longest.into_iter().chain([CAPITALS.to_string()]) {
        for bytes in named(name.as_bytes()) {
            let admitted = Sheet::admit(&bytes).expect("it is a sheet");
            let field = admitted.nodes().next().and_then(|node| node.field(Place(0))).expect("there is a field");
            assert_eq!(field.name(), name);
        }
    }
    for name in ["é".repeat(33), ascii(63) + "é", "Ä".to_string() + &ascii(63), ascii(1) + SMALL] {
        assert_eq!(named(name.as_bytes()).map(|bytes| admit(&bytes).map_err(told)), AT_THE_NAME);
    }
}

#[test]
fn no_letters_are_refused_where_the_name_begins() {
    for bytes in NO_LETTERS {
        for name in [bytes.to_vec(), [b"a", bytes].concat(), [bytes, b"a"].concat(), [b"\xc3\xa9", bytes].concat()] {
            let answers = named(&name).map(|bytes| admit(&bytes).map_err(told));
            assert_eq!(answers, AT_THE_NAME, "{}", name.escape_ascii());
        }
    }
    // A letter in front of a digit passes, and a digit in front of a letter does not.
    assert!(named("Ä9".as_bytes()).iter().all(|bytes| admit(bytes).is_ok()));
    assert_eq!(named("9Ä".as_bytes()).map(|bytes| admit(&bytes).map_err(told)), AT_THE_NAME);
}

/// Cut off after each of its bytes, in the middle of letters too, the sheet is whole only behind its node and its fields.
#[test]
fn torn_at_every_byte() {
    let bytes = sheet(BED);
    let mut whole = Vec::new();
    for end in 0..=bytes.len() {
        match admit(&bytes[..end]).map_err(told) {
            Ok(()) => whole.push(bytes[..end].iter().filter(|&&byte| byte == b'\n').count()),
            Err((number, spot)) => assert_eq!((number, spot.map(|spot| spot.1)), (2, Some(1))),
        }
    }
    // A Text's default may have one word or both.
    assert_eq!(whole, [2, 5, 9, 10, 11]);
}

#[test]
fn other_texts_keep_to_ascii() {
    let refused = |short: &str| admit(&sheet(short)).map_err(told);
    assert_eq!(refused("R ::cäpnp\nN 7 0 0 1 0 0 0 bed\n"), Err((17, Some((1, 3)))));
    assert_eq!(refused("R ::capnp\nN 7 0 0 1 0 0 0 bäd\n"), Err((17, Some((2, 150)))));
    assert_eq!(refused("R ::capnp\nN 7 0 0 1 0 0 0 bed\nP Gäste\n"), Err((17, Some((3, 3)))));
}

/// A bad name comes before an id that an earlier line has.
#[test]
fn a_bad_name_comes_before_a_doubled_id() {
    let twice = |name: &[u8]| {
        let [_, bytes] = named("é".as_bytes());
        [&bytes[..], &sheet("G 8 65535 "), name, b"\n"].concat()
    };
    assert_eq!(admit(&twice("ä".as_bytes())).map_err(told), Err((3, Some((4, 2)))));
    assert_eq!(admit(&twice(b"\xc3")).map_err(told), Err((17, Some((4, 45)))));
}

#[test]
fn the_name_helpers() {
    for (name, styled, constant) in [
        ("étatÄ", "état_Ä", "DEFAULT_éTAT_Ä"),
        ("straßeNr", "straße_nr", "DEFAULT_STRAßE_NR"),
        ("Übergabe", "Übergabe", "DEFAULT_ÜBERGABE"),
        ("ÖØöø", "Ö_Øöø", "DEFAULT_Ö_Øöø"),
        ("a b-Ä", "a b-_Ä", "DEFAULT_A B-_Ä"),
    ] {
        assert_eq!(snake(name.as_bytes()).as_deref(), Some(styled));
        assert_eq!(module_name(name.as_bytes()).as_deref(), Some(styled));
        assert_eq!(default_name(name.as_bytes()).as_deref(), Some(constant));
    }
    for letter in CAPITALS.chars() {
        assert_eq!(snake(format!("{letter}{letter}").as_bytes()), Some(format!("{letter}_{letter}")));
    }
    for letter in SMALL.chars() {
        assert_eq!(snake(format!("a{letter}").as_bytes()), Some(format!("a{letter}")));
    }
    assert_eq!(snake("É".repeat(32).as_bytes()), Some(vec!["É"; 32].join("_")));
}

#[test]
fn what_the_name_helpers_do_not_take() {
    let long = ["é".repeat(33), "a".repeat(63) + "é"].map(String::into_bytes);
    for name in NO_LETTERS.iter().map(|bytes| [b"a", *bytes].concat()).chain(long) {
        for helper in [snake, default_name, module_name] {
            assert_eq!(helper(&name), None, "{}", name.escape_ascii());
        }
    }
}
