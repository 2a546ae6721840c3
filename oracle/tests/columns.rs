//! Where a line is bad, by request N5: its cases, with number, line and column written down by hand.

use oracle::answer::{answer, Request, State};
use oracle::generate::corners::{node, slot};
use oracle::generate::{self, faults};
use oracle::program::accessors;
use oracle::random::Random;
use oracle::sheet::print::{numbers, print};
use oracle::sheet::read::{read, Refusal};
use oracle::sheet::{Sheet, Type};
use std::collections::BTreeSet;

const ROOT: &str = "R ::capnp";
const LARGEST: u64 = u64::MAX;

fn bed() -> String {
    numbers('N', &[7, 0, 0, 1, 0, 0, 0]) + " bed"
}

/// The F line of a slot.
fn field() -> String {
    numbers('F', &[3, 65535, 0, 0]) + " isFree"
}

/// The refusal of a sheet by number, line and column; `(0, 0, 0)` where it is admitted.
fn told(bytes: &[u8]) -> (u64, u64, u64) {
    read(bytes).err().map_or((0, 0, 0), |refusal| (refusal.number, refusal.line, refusal.column))
}

/// The same of lines without their bytes 10.
fn of_lines(lines: &[&str]) -> (u64, u64, u64) {
    told((lines.join("\n") + "\n").as_bytes())
}

/// A line behind R and N: it is the third.
fn third(line: &str) -> (u64, u64, u64) {
    of_lines(&[ROOT, &bed(), line])
}

/// A line behind R, N and F: it is the fourth.
fn fourth(line: &str) -> (u64, u64, u64) {
    of_lines(&[ROOT, &bed(), &field(), line])
}

/// A line behind a type, which has a scope where the line is an S.
fn fifth(line: &str) -> (u64, u64, u64) {
    let scopes = u64::from(line.starts_with('S'));
    of_lines(&[ROOT, &bed(), &field(), &numbers('T', &[16, 7, scopes, 0]), line])
}

/// A line behind a scope with one binding, or behind a Text's default with words.
fn sixth(line: &str) -> (u64, u64, u64) {
    if line.starts_with('W') {
        let explicit = numbers('F', &[0, 65535, 1, 0]) + " name";
        return of_lines(&[ROOT, &bed(), &explicit, &numbers('T', &[12, 0, 0, 0]), &numbers('V', &[12, 0]), line]);
    }
    let scope = numbers('S', &[7, 1, 1]);
    of_lines(&[ROOT, &bed(), &field(), &numbers('T', &[16, 7, 1, 0]), &scope, line])
}

/// A line with a text in place of one of its numbers, from 0.
fn with(line: &str, place: usize, text: &str) -> String {
    let start = 1 + 21 * place;
    format!("{}{text:>21}{}", &line[..start], &line[start + 21..])
}

/// Point 1: among 2, 16 and 17 the leftmost, then 3, then 4.
#[test]
fn of_two_faults_the_leftmost() {
    let offset_and_option = with(&with(&field(), 0, "x"), 3, "2");
    assert_eq!(third(&offset_and_option), (16, 3, 2));
    let option_and_name = numbers('F', &[3, 65535, 0, 2]) + " 9free";
    assert_eq!(third(&option_and_name), (16, 3, 65));
    let kind_and_surplus = numbers('T', &[19, 0, 0, 0]) + "x";
    assert_eq!(fourth(&kind_and_surplus), (16, 4, 2));
    let letter_and_number = with(&numbers('X', &[1, 0, 0, 0]), 0, "01");
    assert_eq!(fourth(&letter_and_number), (2, 4, 1));
}

#[test]
fn an_id_met_before_comes_after_the_faults_of_its_line() {
    assert_eq!(third(&bed()), (3, 3, 2));
    assert_eq!(third(&(numbers('N', &[7, 0, 0, 1, 0, 0, 0]) + " b d")), (17, 3, 150));
    assert_eq!(third(&(numbers('N', &[7, 0, 0, 1, 0, 65_536, 0]) + " bed")), (16, 3, 107));
    let group = |name: &str| numbers('G', &[9, 65535]) + name;
    assert_eq!(of_lines(&[ROOT, &bed(), &group(" plan"), &group(" plan")]), (3, 4, 2));
    assert_eq!(of_lines(&[ROOT, &bed(), &group(" plan"), &group(" pl-n")]), (17, 4, 45));
    assert_eq!(of_lines(&[ROOT, &bed(), &group(" plan"), &group("plan")]), (17, 4, 44));
}

#[test]
fn a_17th_level_comes_after_the_faults_of_its_line() {
    let deep = |last: &str| {
        let (bed, field, list) = (bed(), field(), numbers('T', &[14, 0, 0, 0]));
        let mut lines = vec![ROOT, &bed, &field];
        lines.extend([list.as_str(); 16]);
        lines.push(last);
        of_lines(&lines)
    };
    assert_eq!(deep(&numbers('T', &[1, 0, 0, 0])), (4, 20, 1));
    assert_eq!(deep(&numbers('T', &[1, 0, 7, 0])), (16, 20, 44));
    assert_eq!(deep(&numbers('T', &[19, 0, 0, 0])), (16, 20, 2));
    assert_eq!(deep(&(numbers('T', &[1, 0, 0, 0]) + "\r")), (17, 20, 86));
    assert_eq!(deep(&numbers('V', &[1, 0])), (2, 20, 1));
}

/// Point 2: 2 stands at column 1 and wins its line.
#[test]
fn letters_order_and_cut_sheets_stand_at_column_1() {
    assert_eq!(told(b""), (2, 1, 1));
    assert_eq!(told(b"\n"), (2, 1, 1));
    assert_eq!(told(b"R ::capnp\n"), (2, 2, 1));
    let torn = format!("{ROOT}\n{}", with(&bed(), 3, "2"));
    assert_eq!(told(torn.as_bytes()), (2, 2, 1));
    assert_eq!(third(""), (2, 3, 1));
    assert_eq!(third(" P T"), (2, 3, 1));
    assert_eq!(third("p T"), (2, 3, 1));
    assert_eq!(fourth(&numbers('V', &[19, 0])), (2, 4, 1));
    // Too few words, scopes and bindings, and one that is too many.
    assert_eq!(fifth(&numbers('W', &[1])), (2, 5, 1));
    assert_eq!(fifth(&numbers('S', &[7, 1, 2])), (2, 6, 1));
    assert_eq!(sixth(&numbers('S', &[7, 1, 1])), (2, 6, 1));
}

/// A line that may not stand there is 2 whatever its numbers and its text are.
#[test]
fn a_line_too_many_is_2_with_a_bad_number_too() {
    let nodes: Vec<String> = (1..=64).map(|id| numbers('N', &[id, 0, 0, 1, 0, 0, 0]) + " bed").collect();
    let mut lines = vec![ROOT];
    lines.extend(nodes.iter().map(String::as_str));
    let node = with(&bed(), 0, "0");
    assert_eq!(of_lines(&[&lines[..], &[&node]].concat()), (2, 66, 1));
    let (bed, explicit) = (bed(), numbers('F', &[0, 65535, 1, 0]) + " name");
    let (typ, value, word) = (numbers('T', &[12, 0, 0, 0]), numbers('V', &[12, 0]), numbers('W', &[5]));
    let mut lines = vec![ROOT, &bed, &explicit, &typ, &value];
    lines.extend([word.as_str(); 255]);
    assert_eq!(of_lines(&lines), (0, 0, 0));
    assert_eq!(of_lines(&[&lines[..], &["W"]].concat()), (2, 261, 1));
    let after_field =
        |line: &str| of_lines(&[ROOT, &bed, &field(), &numbers('T', &[1, 0, 0, 0]), &numbers('V', &[1, 1]), line]);
    assert_eq!(after_field("P 9"), (2, 6, 1));
    assert_eq!(after_field("Px"), (2, 6, 1));
    assert_eq!(after_field(&numbers('W', &[1])), (2, 6, 1));
    // Where several letters may stand, each is told by its own fault.
    assert_eq!(after_field("N"), (16, 6, 2));
    assert_eq!(after_field("F"), (16, 6, 2));
    assert_eq!(after_field("G"), (16, 6, 2));
    assert_eq!(third("P 9"), (17, 3, 3));
    assert_eq!(sixth("U1"), (17, 6, 2));
    assert_eq!(sixth("T"), (16, 6, 2));
}

/// Point 3: all that document 01 says of a number by itself.
#[test]
fn a_badly_written_number() {
    for text in
        ["", "+3", "-3", "03", "00", "3 ", "3 3", "3a", "x", "3\t", "18446744073709551616", "999999999999999999999"]
    {
        assert_eq!(third(&with(&field(), 0, text)), (16, 3, 2), "{text}");
        assert_eq!(third(&with(&field(), 3, text)), (16, 3, 65), "{text}");
    }
}

#[test]
fn a_number_over_its_width() {
    for (numbers_of, column) in [
        ([0, 0, 0, 1, 0, 0, 0], 2),
        ([7, 0, 0, 2, 0, 0, 0], 65),
        ([7, 0, 0, 1, 2, 0, 0], 86),
        ([7, 0, 0, 1, 0, 65_536, 0], 107),
        ([7, 0, 0, 1, 0, 0, 1 << 32], 128),
    ] {
        assert_eq!(of_lines(&[ROOT, &(numbers('N', &numbers_of) + " bed")]), (16, 2, column));
    }
    let node = numbers('N', &[LARGEST, LARGEST, LARGEST, 1, 1, 65_535, 4_294_967_295]) + " bed";
    assert_eq!(of_lines(&[ROOT, &node]), (0, 0, 0));
    for (numbers_of, column) in
        [([1 << 32, 0, 0, 0], 2), ([0, 65_536, 0, 0], 23), ([0, 0, 2, 0], 44), ([0, 0, 0, 2], 65)]
    {
        assert_eq!(third(&(numbers('F', &numbers_of) + " isFree")), (16, 3, column));
    }
    assert_eq!(third(&(numbers('G', &[0, 0]) + " plan")), (16, 3, 2));
    assert_eq!(third(&(numbers('G', &[9, 65_536]) + " plan")), (16, 3, 23));
}

/// Point 3: of two numbers that disagree the right one is bad.
#[test]
fn a_number_that_disagrees_with_those_to_its_left() {
    for (numbers_of, column) in [
        ([19, 0, 0, 0], 2),
        ([0, 1, 0, 0], 23),
        ([13, 0, 1, 0], 44),
        ([14, 0, 0, 1], 65),
        ([16, 7, 0, 1], 65),
        ([18, 2, 0, 0], 23),
        ([18, 2, 7, 7], 23),
        ([18, 0, 7, 0], 44),
        ([18, 0, 0, 1], 65),
        ([18, 1, 7, 65_536], 65),
    ] {
        assert_eq!(fourth(&numbers('T', &numbers_of)), (16, 4, column), "{numbers_of:?}");
    }
    assert_eq!(fourth(&numbers('T', &[17, LARGEST, 0, 0])), (2, 5, 1));
    assert_eq!(fourth(&numbers('T', &[18, 1, LARGEST, 65_535])), (2, 5, 1));
    assert_eq!(fifth(&numbers('S', &[7, 2, 0])), (16, 5, 23));
    assert_eq!(fifth(&numbers('S', &[7, 0, 1])), (16, 5, 44));
    for (kind, bits) in [(0, 1), (1, 2), (2, 256), (7, 65_536), (10, 1 << 32), (12, 1), (15, 65_536), (18, 1)] {
        assert_eq!(fifth(&numbers('V', &[kind, bits])), (16, 5, 23), "V {kind} {bits}");
    }
    assert_eq!(fifth(&numbers('V', &[19, 0])), (16, 5, 2));
    assert_eq!(fifth(&numbers('V', &[9, LARGEST])), (0, 0, 0));
}

/// Point 4: a line that is too short for a number, whose column may lie past it.
#[test]
fn a_line_that_ends_too_soon() {
    assert_eq!(fourth("T"), (16, 4, 2));
    assert_eq!(fourth("T                    1"), (16, 4, 23));
    assert_eq!(fourth("T                   1"), (16, 4, 2));
    assert_eq!(fourth(&numbers('T', &[1, 0, 0])), (16, 4, 65));
    assert_eq!(fourth(&numbers('T', &[1, 0, 0, 0])[..84]), (16, 4, 65));
    assert_eq!(third("F"), (16, 3, 2));
    assert_eq!(third(&numbers('F', &[3, 65535])), (16, 3, 44));
    assert_eq!(of_lines(&[ROOT, "N"]), (16, 2, 2));
    assert_eq!(of_lines(&[ROOT, &bed()[..147]]), (16, 2, 128));
    assert_eq!(fifth(&numbers('V', &[1])), (16, 5, 23));
    assert_eq!(sixth("W"), (16, 6, 2));
}

/// A number that is moved by a column: to the left it ends in a space, to the right its last digit stands in the next columns.
#[test]
fn a_number_that_is_moved_by_a_column() {
    assert_eq!(fourth(&with(&numbers('T', &[1, 0, 0, 0]), 0, "1 ")), (16, 4, 2));
    assert_eq!(fourth(&numbers('T', &[1, 0, 0, 0]).replacen("T ", "T  ", 1)), (16, 4, 2));
    assert_eq!(fourth(&numbers('T', &[16, 7, 0, 0]).replacen("T ", "T  ", 1)), (16, 4, 23));
    assert_eq!(fifth(&numbers('V', &[9, 12]).replacen("9 ", "9  ", 1)), (17, 5, 44));
    assert_eq!(third(&field().replacen("F ", "F", 1)), (16, 3, 2));
    let moved = format!("F{:>21}{:>21}{:>21}{:>22}isFree", 3, 65535, 0, 10);
    assert_eq!(third(&moved), (17, 3, 86));
}

/// Point 5: faults of the space stand at its column, those of the text where it begins.
#[test]
fn a_bad_text() {
    // The space's column, for R, N, P, F and G.
    let texts = |text: &str| {
        [
            of_lines(&[&format!("R{text}")]),
            of_lines(&[ROOT, &(numbers('N', &[7, 0, 0, 1, 0, 0, 0]) + text)]),
            third(&format!("P{text}")),
            third(&(numbers('F', &[3, 65535, 0, 0]) + text)),
            third(&(numbers('G', &[9, 65535]) + text)),
        ]
    };
    for text in ["", "a", "_a", "\ta", "\u{a0}a"] {
        assert_eq!(texts(text), [(17, 1, 2), (17, 2, 149), (17, 3, 2), (17, 3, 86), (17, 3, 44)], "{text}");
    }
    let long = format!(" {}", "n".repeat(129));
    for text in [" ", "  a", " a ", " a b", " a\r", " a\u{7f}", " a\0", &long] {
        assert_eq!(texts(text), [(17, 1, 3), (17, 2, 150), (17, 3, 3), (17, 3, 87), (17, 3, 45)], "{text}");
    }
    // Names alone.
    let longest = format!(" {}", "n".repeat(65));
    for text in [" 9a", " a-b", " -a", &longest] {
        assert_eq!(texts(text)[2..], [(17, 3, 3), (17, 3, 87), (17, 3, 45)], "{text}");
    }
}

/// Point 5, and N2's sequences: the column is where the text begins, never that of the bad byte.
#[test]
fn a_torn_letter() {
    for name in [&b"a\xc3"[..], b"stra\x9fe", b"\xc3\x97", b"a\xcc\x88", b"\xe4"] {
        let line = [numbers('F', &[3, 65535, 0, 0]).as_bytes(), b" ", name].concat();
        let bytes = [ROOT.as_bytes(), b"\n", bed().as_bytes(), b"\n", &line, b"\n"].concat();
        assert_eq!(told(&bytes), (17, 3, 87), "{}", name.escape_ascii());
    }
    assert_eq!(third("P Gäste"), (17, 3, 3));
}

/// Point 6: surplus bytes on a line without a text, of which byte 13 is one.
#[test]
fn surplus_bytes() {
    for surplus in [" ", "\r", "x", "0", "                    0"] {
        let with = |letter: char, values: &[u64]| numbers(letter, values) + surplus;
        assert_eq!(fourth(&with('T', &[1, 0, 0, 0])), (17, 4, 86));
        assert_eq!(fifth(&with('S', &[7, 0, 0])), (17, 5, 65));
        assert_eq!(sixth(&with('U', &[])), (17, 6, 2));
        assert_eq!(fifth(&with('V', &[1, 1])), (17, 5, 44));
        assert_eq!(sixth(&with('W', &[5])), (17, 6, 23));
    }
    assert_eq!(of_lines(&["R ::capnp\r", &bed()]), (17, 1, 3));
}

/// Point 7: what names no line names no column, and so does a 4 of capnpc's own steps.
#[test]
fn refusals_without_a_line() {
    assert_eq!(told(&[b'x'; 65_537]), (1, 0, 0));
    let own_parent = print(&Sheet::of(vec![node(7, 7, "bed", &[]).slots([slot("plan", Type::Struct(7, vec![]))])]));
    let ask = |place, fill| answer(&own_parent, 7, place, Request::Setter, State::flat(fill), &mut [0; 9]);
    assert_eq!(ask(0, 0), Err(Refusal::nowhere(4)));
    assert_eq!(ask(1, 0), Err(Refusal::nowhere(15)));
    assert_eq!(ask(0, 10), Err(Refusal::nowhere(21)));
    let torn = answer(b"R ::capnp\nN", 7, 0, Request::Setter, State::flat(0), &mut [0; 9]);
    assert_eq!(torn, Err(Refusal { number: 2, line: 2, column: 1 }));
}

/// Point 8: what the program prints.
#[test]
fn the_program_prints_the_column() {
    let printed = |bytes: &[u8]| String::from_utf8(accessors(bytes)).expect("texts are UTF-8");
    assert_eq!(printed(&[b'x'; 65_537]), "refused 1 line 0 column 0\n");
    assert_eq!(printed(b"R ::capnp\n"), "refused 2 line 2 column 1\n");
    assert_eq!(printed(b"R ::capnp\nN\n"), "refused 16 line 2 column 2\n");
    assert_eq!(printed(b"R\n"), "refused 17 line 1 column 2\n");
    let twice = format!("{ROOT}\n{0}\n{0}\n", bed());
    assert_eq!(printed(twice.as_bytes()), "refused 3 line 3 column 2\n");
    let missing = print(&Sheet::of(vec![node(7, 0, "bed", &[]).slots([slot("plan", Type::Struct(8, vec![]))])]));
    assert!(printed(&missing).starts_with("# getter reader plan\nrefused 5\n"));
}

/// The sheets with faults on a line are many, have the answers of the reader, and meet every column of every letter.
#[test]
fn faults_meet_every_column_of_every_letter() {
    let (mut count, mut met) = (0, BTreeSet::new());
    faults::each(|bound| {
        count += 1;
        assert_eq!(read(&bound.bytes).err(), bound.expected, "{}: {}", bound.name, bound.bytes.escape_ascii());
        if let Some(refusal) = bound.expected {
            let row = bound.bytes.split(|&byte| byte == b'\n').nth(refusal.line as usize - 1).unwrap_or_default();
            met.insert((row.first().map_or(' ', |&byte| byte as char), refusal.number, refusal.column));
        }
    });
    assert!(count > 100_000, "{count} sheets");
    let columns: [(char, &[u64], &[u64]); 10] = [
        ('R', &[], &[2, 3]),
        ('N', &[2, 23, 44, 65, 86, 107, 128], &[149, 150]),
        ('P', &[], &[2, 3]),
        ('F', &[2, 23, 44, 65], &[86, 87]),
        ('G', &[2, 23], &[44, 45]),
        ('T', &[2, 23, 44, 65], &[86]),
        ('S', &[2, 23, 44], &[65]),
        ('U', &[], &[2]),
        ('V', &[2, 23], &[44]),
        ('W', &[2], &[23]),
    ];
    let mut expected = BTreeSet::from([('N', 3, 2), ('G', 3, 2), ('T', 4, 1)]);
    for (letter, of_numbers, of_texts) in columns {
        expected.extend(of_numbers.iter().map(|&column| (letter, 16, column)));
        expected.extend(of_texts.iter().map(|&column| (letter, 17, column)));
    }
    met.retain(|&(_, number, column)| number != 2 || column != 1);
    assert_eq!(met, expected);
}

/// So have those with faults on a line of a random valid sheet.
#[test]
fn faults_on_lines_of_random_sheets() {
    let random = &mut Random::new(18);
    for turn in 0..2_000 {
        let (_, bytes) = generate::sheet(random, turn);
        let bound = faults::random(random, &bytes);
        assert_eq!(read(&bound.bytes).err(), bound.expected, "turn {turn}");
    }
}
