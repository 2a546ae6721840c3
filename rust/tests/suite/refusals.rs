//! Every refusal, from a smallest sheet that is refused by it, with its line and column, and its sentence.

use crate::common::{ask, file, requests, sheet, told, Told};
use kitlubas::{Form, Leaf, NodeId, Place, Refusal, Request, Side};
use std::fs;

const OWNED: Request = Request::TypeText(Leaf::Owned);
const GETTER: Request = Request::Getter { side: Side::Reader, form: Form::Plain };

fn refused(number: u64) -> Told {
    (number, None)
}

fn at(number: u64, line: usize, column: usize) -> Told {
    (number, Some((line, column)))
}

fn admit(sheet: &[u8]) -> Result<(), Told> {
    kitlubas::admit(sheet).map_err(told)
}

/// A sheet whose node 7 has one slot, of these lines; the slot's F line is the third.
fn slot(lines: &str) -> Vec<u8> {
    sheet(&format!("R ::capnp\nN 7 0 0 1 0 0 0 bed\n{lines}"))
}

/// The refusal of a request on the slot of node 7.
fn refusal(sheet: &[u8], request: Request) -> Told {
    ask(sheet, (7, 0), request, 65_536, 0).expect_err("the request is refused")
}

#[test]
fn number_1_a_sheet_over_65536_bytes() {
    assert_eq!(admit(&[0; 65_537]), Err(refused(1)));
    assert_eq!(admit(&[0; 65_536]), Err(at(2, 1, 1)));
    assert_eq!(refusal(&[0; 65_537], OWNED), refused(1));
}

#[test]
fn number_2_a_letter_order_or_end() {
    assert_eq!(admit(b""), Err(at(2, 1, 1)));
    assert_eq!(admit(b"R ::capnp\n"), Err(at(2, 2, 1)));
    assert_eq!(admit(&slot("F 3 65535 1 0 isFree\nT 1 0 0 0\n")), Err(at(2, 5, 1)));
    assert_eq!(admit(&slot("U")), Err(at(2, 3, 1)));
    assert_eq!(refusal(b"", OWNED), at(2, 1, 1));
}

#[test]
fn number_3_an_id_on_a_second_node() {
    assert_eq!(admit(&slot("N 7 0 0 1 0 0 0 bed\n")), Err(at(3, 3, 2)));
    assert_eq!(admit(&slot("G 9 65535 plan\nG 9 65535 plan\n")), Err(at(3, 4, 2)));
}

#[test]
fn number_4_a_17th_level() {
    let lists = |count| format!("F 0 65535 0 0 plan\n{}T 1 0 0 0\nV 14 0\n", "T 14 0 0 0\n".repeat(count));
    assert_eq!(admit(&slot(&lists(15))), Ok(()));
    assert_eq!(admit(&slot(&lists(16))), Err(at(4, 20, 1)));
    let own_parent = sheet("R ::capnp\nN 7 7 7 1 0 0 0 bed\nF 0 65535 0 0 plan\nT 16 7 0 0\nV 16 0\n");
    assert_eq!(refusal(&own_parent, OWNED), refused(4));
}

#[test]
fn number_5_a_node_that_is_not_there() {
    assert_eq!(refusal(&slot("F 0 65535 0 0 status\nT 15 9 0 0\nV 15 0\n"), OWNED), refused(5));
}

#[test]
fn number_6_a_list_of_any_pointer() {
    assert_eq!(refusal(&slot("F 0 65535 0 0 plans\nT 14 0 0 0\nT 18 0 0 0\nV 14 0\n"), OWNED), refused(6));
}

#[test]
fn number_7_a_parameter_without_such_a_leaf() {
    let generic = slot("P Plan\nF 0 65535 0 0 plan\nT 18 1 7 0\nV 18 0\n");
    for leaf in [Leaf::Client, Leaf::Server, Leaf::ServerDispatch, Leaf::GetType] {
        assert_eq!(refusal(&generic, Request::TypeText(leaf)), refused(7));
    }
    assert!(ask(&generic, (7, 0), OWNED, 100, 0).is_ok());
}

#[test]
fn number_8_bindings_and_parameters() {
    assert_eq!(refusal(&slot("F 0 65535 0 0 plan\nT 16 7 1 0\nS 7 1 1\nU\nV 16 0\n"), OWNED), refused(8));
}

#[test]
fn number_9_option_on_a_slot_that_is_no_pointer() {
    let flag = slot("F 3 65535 0 1 isFree\nT 1 0 0 0\nV 1 0\n");
    assert_eq!(refusal(&flag, GETTER), refused(9));
    assert!(ask(&flag, (7, 0), Request::Setter, 200, 0).is_ok());
}

#[test]
fn number_10_a_getter_with_a_default_of_another_type() {
    let flag = slot("F 3 65535 0 0 isFree\nT 1 0 0 0\nV 2 3\n");
    assert_eq!(refusal(&flag, GETTER), refused(10));
    assert!(ask(&flag, (7, 0), Request::Setter, 200, 0).is_ok());
}

#[test]
fn number_11_a_setter_with_a_default_that_is_no_number() {
    assert_eq!(refusal(&slot("F 3 65535 0 0 isFree\nT 1 0 0 0\nV 0 0\n"), Request::Setter), refused(11));
}

#[test]
fn number_12_a_setter_with_an_explicit_default_that_is_no_enum() {
    let status = |explicit| slot(&format!("F 4 65535 {explicit} 0 status\nT 15 7 0 0\nV 7 2\n"));
    assert_eq!(refusal(&status(1), Request::Setter), refused(12));
    assert!(ask(&status(0), (7, 0), Request::Setter, 200, 0).is_ok());
}

#[test]
fn number_13_a_parameter_past_the_end() {
    assert_eq!(refusal(&slot("F 0 65535 0 0 plan\nT 18 1 7 0\nV 18 0\n"), OWNED), refused(13));
}

#[test]
fn number_14_a_group_whose_node_is_no_struct() {
    assert_eq!(refusal(&slot("G 9 65535 plan\nN 9 7 7 0 0 0 0 plan\n"), Request::Zeroing), refused(14));
}

#[test]
fn number_15_no_such_node_or_field() {
    let flag = slot("F 3 65535 0 0 isFree\nT 1 0 0 0\nV 1 0\nG 9 65535 plan\n");
    for (node, place) in [(8, 0), (7, 2), (7, u64::MAX), (u64::MAX, 0), (0, 0)] {
        assert_eq!(ask(&flag, (node, place), OWNED, 100, 0), Err(refused(15)));
    }
    // A group has no type and no accessors, and a slot has no zeroing.
    for request in requests() {
        assert_eq!(ask(&flag, (7, 1), request, 100, 0), Err(refused(15)));
    }
    assert_eq!(ask(&flag, (7, 0), Request::Zeroing, 100, 0), Err(refused(15)));
}

#[test]
fn number_16_a_number() {
    assert_eq!(admit(&slot("F 3 65536 1 0 isFree\nT 1 0 0 0\nV 1 1\n")), Err(at(16, 3, 23)));
    assert_eq!(admit(&slot("F 3 65535 1 0 isFree\nT 18 0 7 0\nV 18 0\n")), Err(at(16, 4, 44)));
    assert_eq!(refusal(&slot("F 3 65535 1 0 isFree\nT 1 0 0 0\nV 1 2\n"), OWNED), at(16, 5, 23));
}

#[test]
fn number_17_a_text_or_surplus_bytes() {
    assert_eq!(admit(&slot("F 3 65535 1 0 9Free\nT 1 0 0 0\nV 1 1\n")), Err(at(17, 3, 87)));
    assert_eq!(admit(&slot("F 3 65535 1 0 isFree\nT 1 0 0 0 0\nV 1 1\n")), Err(at(17, 4, 86)));
    assert_eq!(refusal(&slot("P\n"), OWNED), at(17, 3, 2));
}

#[test]
fn number_21_a_fill_count_above_the_length() {
    let flag = slot("F 3 65535 0 0 isFree\nT 1 0 0 0\nV 1 0\n");
    assert_eq!(ask(&flag, (7, 0), OWNED, 100, 101), Err(refused(21)));
    assert_eq!(ask(&flag, (7, 0), OWNED, 0, usize::MAX), Err(refused(21)));
    // It comes before every other refusal.
    assert_eq!(ask(&[0; 65_537], (7, 0), OWNED, 0, 1), Err(refused(21)));
}

#[test]
fn number_22_no_room() {
    let flag = slot("F 3 65535 0 0 isFree\nT 1 0 0 0\nV 1 0\n");
    assert_eq!(ask(&flag, (7, 0), OWNED, 3, 0), Err(refused(22)));
    assert_eq!(ask(&flag, (7, 0), OWNED, 4, 0), Ok("bool".into()));
    // It comes after every other refusal.
    assert_eq!(ask(&flag, (8, 0), OWNED, 0, 0), Err(refused(15)));
}

const SENTENCES: [(u64, &str); 19] = [
    (1, "the sheet has more than 65,536 bytes (refusal 1)"),
    (2, "line 1, column 1: a line with a letter that may stand there, and a newline at its end (refusal 2)"),
    (3, "line 3, column 2: an id that no earlier line of the same letter has (refusal 3)"),
    (4, "line 20, column 1: a type of at most 16 levels (refusal 4)"),
    (5, "a node that the field refers to is not in the sheet (refusal 5)"),
    (6, "a list of AnyPointer has no text (refusal 6)"),
    (7, "a type parameter has no client, server, dispatch or get_type (refusal 7)"),
    (8, "a brand has not as many bindings as the node that it is for has parameters (refusal 8)"),
    (9, "option stands at a slot that is not a pointer, or at an interface (refusal 9)"),
    (10, "the default is not of the slot's type, so that there is no getter (refusal 10)"),
    (11, "the default of a Bool or a number is neither, so that there is no setter (refusal 11)"),
    (12, "the explicit default of an enum is not an enum's, so that there is no setter (refusal 12)"),
    (13, "a type parameter's index is past the parameters of its node (refusal 13)"),
    (14, "the node of a group is not a struct (refusal 14)"),
    (15, "the sheet has no such node or field, or such a request is not for such a field (refusal 15)"),
    (16, "line 3, column 2: the offset, a number of 32 bits, right-justified in 21 columns (refusal 16)"),
    (17, "line 3, column 2: one space before the parameter's name (refusal 17)"),
    (21, "the fill count is above the buffer's length (refusal 21)"),
    (22, "the text is longer than the free part of the buffer (refusal 22)"),
];

/// A smallest sheet that a number is met by, and a request for the first field of its node 7.
fn met(number: u64) -> (Vec<u8>, Request) {
    let deep = "T 14 0 0 0\n".repeat(16);
    let plan = |typ: &str, value: u64| slot(&format!("F 0 65535 1 0 plan\n{typ}V {value} 0\n"));
    match number {
        1 => (vec![0; 65_537], OWNED),
        2 => (vec![], OWNED),
        3 => (slot("N 7 0 0 1 0 0 0 bed\n"), OWNED),
        4 => (plan(&format!("{deep}T 1 0 0 0\n"), 0), OWNED),
        5 => (plan("T 15 9 0 0\n", 15), OWNED),
        6 => (plan("T 14 0 0 0\nT 18 0 0 0\n", 0), OWNED),
        7 => (slot("P Plan\nF 0 65535 0 0 plan\nT 18 1 7 0\nV 18 0\n"), Request::TypeText(Leaf::Client)),
        8 => (plan("T 16 7 1 0\nS 7 1 1\nU\n", 0), OWNED),
        9 => (slot("F 3 65535 0 1 isFree\nT 1 0 0 0\nV 1 0\n"), GETTER),
        10 => (plan("T 1 0 0 0\n", 2), GETTER),
        11 => (plan("T 1 0 0 0\n", 0), Request::Setter),
        12 => (plan("T 15 7 0 0\n", 7), Request::Setter),
        13 => (plan("T 18 1 7 0\n", 18), OWNED),
        14 => (slot("G 9 65535 plan\nN 9 7 7 0 0 0 0 plan\n"), Request::Zeroing),
        15 => (slot(""), OWNED),
        16 => (slot("F 4294967296 65535 0 0 plan\n"), OWNED),
        17 => (slot("P\n"), OWNED),
        _ => (plan("T 1 0 0 0\n", 1), OWNED),
    }
}

/// Each number is met, straight from bytes, and says its own sentence, or what is expected at the spot where it has one.
#[test]
fn each_number_says_its_sentence() {
    assert!(SENTENCES.iter().map(|row| row.0).eq((1..=17).chain([21, 22])));
    for (number, sentence) in SENTENCES {
        let (sheet, request) = met(number);
        let (length, fill) = match number {
            21 => (3, 4),
            22 => (3, 0),
            _ => (65_536, 0),
        };
        let answer = kitlubas::answer(&sheet, NodeId(7), Place(0), request, &mut vec![0; length], fill);
        let refusal = answer.expect_err(sentence);
        assert_eq!((refusal.number, refusal.to_string().as_str()), (number, sentence));
        assert_eq!(sentence.starts_with(refusal.sentence()), refusal.line.is_none());
    }
}

/// A refusal with any number, which says only what the number says.
fn with_number(number: u64) -> Refusal {
    let (sheet, request) = met(15);
    let mut refusal = kitlubas::text(&sheet, NodeId(7), Place(0), request).expect_err("the request is refused");
    refusal.number = number;
    refusal
}

/// No level of this crate is refused, and the number that C is told has its sentence.
#[test]
fn number_36_says_its_sentence() {
    assert_eq!(with_number(36).to_string(), "the level of indentation is above 8 (refusal 36)");
    assert_eq!(with_number(37).to_string(), "no refusal has this number (refusal 37)");
}

/// The numbers that have a sentence are those that C's header lists.
#[test]
fn the_numbers_of_the_header() {
    let header = fs::read_to_string(file("crates/exports/kitlubas.h")).expect("the header can be read");
    let row = |line: &str| line.strip_prefix(" *")?.trim_start().split_once("  ")?.0.parse().ok();
    let listed: Vec<u64> = header.lines().filter_map(row).collect();
    let no_sentence = with_number(u64::MAX).sentence();
    let said: Vec<u64> = (0..1000).filter(|number| with_number(*number).sentence() != no_sentence).collect();
    assert_eq!(listed, said);
}

/// A chain of parents has a 17th level too, and no line.
#[test]
fn number_4_says_its_sentence_where_it_has_no_line() {
    let own_parent = sheet("R ::capnp\nN 7 7 7 1 0 0 0 bed\nF 0 65535 0 0 plan\nT 16 7 0 0\nV 16 0\n");
    let refusal = kitlubas::text(&own_parent, NodeId(7), Place(0), OWNED).expect_err("the request is refused");
    let sentence = "a type, a chain of parents or the groups inside each other have a 17th level (refusal 4)";
    assert_eq!(refusal.to_string(), sentence);
}

/// The refusals of texts are met by a text with as much room as it takes, too.
#[test]
fn each_number_of_a_text() {
    for number in 1..=17 {
        let (sheet, request) = met(number);
        let refusal = kitlubas::text(&sheet, NodeId(7), Place(0), request).expect_err("the request is refused");
        assert_eq!(refusal.number, number);
    }
}
