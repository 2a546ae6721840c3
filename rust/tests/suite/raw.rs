//! The library itself, called with what the crate never passes: any index, any position, any numbers of a field. It
//! returns, and writes only what it is lent.

use crate::common::{sheet, Random, WARD};

// The crate calls the others.
#[path = "../../src/boundary/declarations.rs"]
#[allow(dead_code)]
mod declarations;

/// What stands around every slice that is lent.
const GUARD: u8 = 0xA5;
const ROOM: usize = 64;
/// How many numbers a field has.
pub const FIELD_SIZE: usize = 14;
/// The highest level of indentation.
const MOST: usize = 8;
/// Levels that are too high.
const TOO_HIGH: [usize; 5] = [9, 10, 64, 1 << 32, usize::MAX];

/// What is asked by its numbers: the request, the leaf and the level.
type Numbers = (u64, u64, usize);

/// The text of a request by its numbers at level 0, or the number of the refusal.
pub fn text(sheet: &[u8], at: (u64, u64), request: u64, leaf: u64) -> Result<String, u64> {
    text_at(sheet, at, (request, leaf, 0), 65_536, 0)
}

/// The text of a request by its numbers, put into a buffer of this length from a fill count on, or the number of the refusal,
/// which leaves the buffer and the fill count.
fn text_at(
    sheet: &[u8],
    (id, place): (u64, u64),
    (request, leaf, level): Numbers,
    length: usize,
    kept: usize,
) -> Result<String, u64> {
    let mut lent = Lent::new(length);
    let (mut fill, mut line, mut column) = (kept, 0, 0);
    let number = unsafe {
        declarations::kitlubas_answer(
            sheet.as_ptr(),
            sheet.len(),
            id,
            place,
            request,
            leaf,
            level,
            &mut fill,
            &mut line,
            &mut column,
            lent.start(),
            length,
        )
    };
    lent.left((number, line, column), kept, fill)
}

/// The same over an index.
fn text_in(
    (sheet, index): (&[u8], &[u64]),
    (id, place): (u64, u64),
    (request, leaf, level): Numbers,
    length: usize,
    kept: usize,
) -> Result<String, u64> {
    let mut lent = Lent::new(length);
    let (mut fill, mut line, mut column) = (kept, 0, 0);
    let number = unsafe {
        declarations::kitlubas_answer_in(
            sheet.as_ptr(),
            sheet.len(),
            index.as_ptr(),
            index.len(),
            id,
            place,
            request,
            leaf,
            level,
            &mut fill,
            &mut line,
            &mut column,
            lent.start(),
            length,
        )
    };
    lent.left((number, line, column), kept, fill)
}

/// The number and the length that are told of a field of node 0 by its numbers, and the text if there is one.
fn text_of(
    (sheet, index): (&[u8], &[u64]),
    field: &[u64],
    (request, leaf, level): Numbers,
    length: usize,
) -> (u64, usize, String) {
    let (mut text_len, mut lent) = (usize::MAX, Lent::new(length));
    let number = unsafe {
        declarations::kitlubas_text(
            sheet.as_ptr(),
            sheet.len(),
            index.as_ptr(),
            index.len(),
            0,
            field.as_ptr(),
            field.len(),
            request,
            leaf,
            level,
            &mut text_len,
            lent.start(),
            length,
        )
    };
    lent.check(0);
    let text = if number == 0 { lent.text(0, text_len) } else { String::new() };
    (number, text_len, text)
}

type NameHelper = unsafe extern "C" fn(usize, *mut u8, usize, *const u8, usize) -> usize;

/// What a name helper writes, with a byte in front of it; nothing, and no byte changed, where it does not take the name.
fn helped(helper: NameHelper, name: &[u8]) -> Option<String> {
    let mut lent = Lent::new(200);
    let fill = unsafe { helper(1, lent.start(), lent.length, name.as_ptr(), name.len()) };
    if fill == usize::MAX {
        lent.check(lent.length);
        return None;
    }
    lent.check(1);
    Some(lent.text(1, fill))
}

pub fn snake(name: &[u8]) -> Option<String> {
    helped(declarations::kitlubas_snake, name)
}

pub fn default_name(name: &[u8]) -> Option<String> {
    helped(declarations::kitlubas_default_name, name)
}

pub fn module_name(name: &[u8]) -> Option<String> {
    helped(declarations::kitlubas_module_name, name)
}

/// What a sheet is answered by: a number, a line and a column.
type Answer = (u64, usize, usize);

/// The answer of a sheet that is admitted.
const ADMITTED: Answer = (0, 0, 0);

/// The index of a sheet, with so many numbers, and what was answered; nothing behind the numbers is written.
fn index(bytes: &[u8], length: usize) -> (Answer, Vec<u64>) {
    let guard = u64::from(GUARD);
    let mut index = vec![guard; length + ROOM];
    let (mut line, mut column) = (usize::MAX, usize::MAX);
    let (s, s_len, index_at) = (bytes.as_ptr(), bytes.len(), index.as_mut_ptr());
    let number = unsafe { declarations::kitlubas_index(s, s_len, index_at, length, &mut line, &mut column) };
    assert!(index[length..].iter().all(|number| *number == guard), "a number behind the index was written");
    index.truncate(length);
    ((number, line, column), index)
}

fn admit(bytes: &[u8]) -> Answer {
    let (mut line, mut column) = (usize::MAX, usize::MAX);
    let number = unsafe { declarations::kitlubas_admit(bytes.as_ptr(), bytes.len(), &mut line, &mut column) };
    (number, line, column)
}

fn index_size(length: usize) -> usize {
    unsafe { declarations::kitlubas_index_size(length) }
}

/// A buffer between guards.
struct Lent {
    bytes: Vec<u8>,
    length: usize,
}

impl Lent {
    fn new(length: usize) -> Lent {
        Lent { bytes: vec![GUARD; length + 2 * ROOM], length }
    }

    fn start(&mut self) -> *mut u8 {
        self.bytes[ROOM..].as_mut_ptr()
    }

    /// What stands in the buffer from a fill count to another.
    fn text(&self, from: usize, to: usize) -> String {
        String::from_utf8(self.bytes[ROOM + from..ROOM + to].to_vec()).expect("texts and names are UTF-8")
    }

    /// The text from a fill count to another, with nothing changed around it; or the number of a refusal that changed nothing.
    fn left(&self, (number, line, column): Answer, kept: usize, fill: usize) -> Result<String, u64> {
        if number != 0 {
            self.check(self.length);
            assert_eq!(fill, kept, "a refusal moved the fill count");
            assert!([2, 3, 4, 16, 17].contains(&number) || (line, column) == (0, 0));
            return Err(number);
        }
        self.check(kept);
        assert!(self.bytes[ROOM + fill..].iter().all(|byte| *byte == GUARD), "a byte behind the text was written");
        Ok(self.text(kept, fill))
    }

    /// Nothing changed before so many bytes of the buffer, and nothing behind it.
    fn check(&self, kept: usize) {
        let (before, behind) = (&self.bytes[..ROOM + kept.min(self.length)], &self.bytes[ROOM + self.length..]);
        assert!(before.iter().chain(behind).all(|byte| *byte == GUARD), "a byte was written that was not lent");
    }
}

/// A number below a bound, mostly.
fn any(random: &mut Random, bound: usize) -> u64 {
    if random.below(8) == 0 {
        random.next()
    } else {
        random.below(bound) as u64
    }
}

/// Asks something over any index, by an id and a place: nothing before the fill count changes.
fn answer_anything(bytes: &[u8], index: &[u64], random: &mut Random) {
    let length = [0, 1, 50, 1000][random.below(4)];
    let kept = random.below(length + 2);
    let level = any(random, 10) as usize;
    let (mut fill, mut line, mut column, mut lent) = (kept, 0, 0, Lent::new(length));
    let number = unsafe {
        declarations::kitlubas_answer_in(
            bytes.as_ptr(),
            bytes.len(),
            index.as_ptr(),
            index.len(),
            any(random, 10),
            any(random, 9),
            any(random, 11),
            any(random, 11),
            level,
            &mut fill,
            &mut line,
            &mut column,
            lent.start(),
            length,
        )
    };
    lent.check(kept);
    assert_eq!(number == 21, kept > length);
    assert_eq!(number == 36, kept <= length && level > MOST);
    assert!(if number == 0 { kept <= fill && fill <= length } else { fill == kept });
}

/// A position, mostly one at which a line begins.
fn position(bytes: &[u8], random: &mut Random) -> usize {
    let at = any(random, bytes.len() + 2) as usize;
    let rest = bytes.get(at..).unwrap_or_default();
    match rest.iter().position(|byte| *byte == b'\n') {
        Some(end) if random.below(4) != 0 => at + end + 1,
        _ => at,
    }
}

/// The numbers of what stands at a position, whole, cut or damaged.
fn numbers(bytes: &[u8], random: &mut Random) -> Vec<u64> {
    let (mut numbers, _) = field(bytes, position(bytes, random), FIELD_SIZE);
    for _ in 0..random.below(3) {
        let at = random.below(FIELD_SIZE);
        numbers[at] = any(random, if at == 0 { 4 } else { bytes.len() + 9 });
    }
    numbers.truncate(if random.below(8) == 0 { random.below(FIELD_SIZE) } else { FIELD_SIZE });
    numbers
}

/// Asks for the text of something over any index, by a node's number and the numbers of a field.
fn text_of_anything(bytes: &[u8], index: &[u64], random: &mut Random) {
    let length = [0, 1, 50, 1000][random.below(4)];
    let field = numbers(bytes, random);
    let level = any(random, 10) as usize;
    let (mut text_len, mut lent) = (usize::MAX, Lent::new(length));
    let number = unsafe {
        declarations::kitlubas_text(
            bytes.as_ptr(),
            bytes.len(),
            index.as_ptr(),
            index.len(),
            any(random, 3) as usize,
            field.as_ptr(),
            field.len(),
            any(random, 11),
            any(random, 11),
            level,
            &mut text_len,
            lent.start(),
            length,
        )
    };
    lent.check(0);
    assert_eq!(number == 36, level > MOST);
    match number {
        0 => assert!(text_len <= length && field.len() == FIELD_SIZE),
        22 => assert!(text_len > length),
        _ => assert_eq!(text_len, 0),
    }
}

/// The node with a number, over any index: its four values, or nothing where they are 0.
fn node(bytes: &[u8], index: &[u64], number: usize) -> Option<(u64, usize, usize, usize)> {
    let (mut id, mut module, mut module_len, mut fields) = (9, 9, 9, 9);
    let refusal = unsafe {
        declarations::kitlubas_node(
            bytes.as_ptr(),
            bytes.len(),
            index.as_ptr(),
            index.len(),
            number,
            &mut id,
            &mut module,
            &mut module_len,
            &mut fields,
        )
    };
    match refusal {
        0 => return Some((id, module, module_len, fields)),
        number => assert_eq!((number, id, module, module_len, fields), (15, 0, 0, 0, 0)),
    }
    None
}

/// The four values of a field: its kind, where its name stands and how long that is, and where the next one stands.
type Values = (u64, usize, usize, usize);

/// The field at a position, of any bytes: so many numbers of which its own are the first, and its four values, or nothing
/// where they are 0. Nothing behind the numbers is written.
fn field(bytes: &[u8], at: usize, length: usize) -> (Vec<u64>, Option<Values>) {
    let guard = u64::from(GUARD);
    let mut field = vec![guard; length + ROOM];
    let (mut kind, mut name, mut name_len, mut next) = (9, 9, 9, 9);
    let refusal = unsafe {
        declarations::kitlubas_field(
            bytes.as_ptr(),
            bytes.len(),
            at,
            field.as_mut_ptr(),
            length,
            &mut kind,
            &mut name,
            &mut name_len,
            &mut next,
        )
    };
    assert!(field[length..].iter().all(|number| *number == guard), "a number behind the field's was written");
    field.truncate(length);
    let values = (kind, name, name_len, next);
    assert!(refusal == 0 || (refusal, values) == (15, (0, 0, 0, 0)));
    (field, (refusal == 0).then_some(values))
}

/// The number and the verdict that are told of a field of the node with a number, by the field's numbers.
fn verdict_on((sheet, index): (&[u8], &[u64]), node: usize, field: &[u64]) -> (u64, u64) {
    let mut verdict = u64::MAX;
    let number = unsafe {
        declarations::kitlubas_verdict(
            sheet.as_ptr(),
            sheet.len(),
            index.as_ptr(),
            index.len(),
            node,
            field.as_ptr(),
            field.len(),
            &mut verdict,
        )
    };
    assert!((number, verdict) == (15, 0) || number == 0 && verdict <= 3, "{number} with verdict {verdict}");
    (number, verdict)
}

/// The same of the first field of a sheet.
pub fn verdict(bytes: &[u8]) -> (u64, u64) {
    let (_, whole) = index(bytes, index_size(bytes.len()));
    let first = node(bytes, &whole, 0).expect("there is a node").3;
    let (field, _) = field(bytes, first, FIELD_SIZE);
    verdict_on((bytes, &whole), 0, &field)
}

/// Asks for a verdict over any index, by a node's number and the numbers of a field.
fn verdict_on_anything(bytes: &[u8], index: &[u64], random: &mut Random) {
    let field = numbers(bytes, random);
    let (number, _) = verdict_on((bytes, index), any(random, 3) as usize, &field);
    assert!(number == 15 || field.len() == FIELD_SIZE);
}

/// A number that no request has is 15, at any leaf, after what the sheet itself is refused for.
#[test]
fn numbers_of_no_request() {
    let ward = sheet(WARD);
    for request in [10, 11, 1 << 32, u64::MAX] {
        for leaf in [0, 9, 10, u64::MAX] {
            assert_eq!(text(&ward, (7, 0), request, leaf), Err(15));
            assert_eq!(text(&ward[1..], (7, 0), request, leaf), Err(2));
            assert_eq!(text(&vec![b' '; 65_537], (7, 0), request, leaf), Err(1));
        }
    }
}

/// The setter at a level.
fn setter(level: usize) -> Numbers {
    (5, 0, level)
}

/// A level above 8 is 36: after a fill count above the length, which is 21, and before everything else.
#[test]
fn levels_above_8() {
    let ward = sheet(WARD);
    let torn = &ward[1..];
    let long = vec![b' '; 65_537];
    for level in TOO_HIGH {
        for kept in [0, 5, 500] {
            assert_eq!(text_at(&ward, (7, 0), setter(level), 500, kept), Err(36));
        }
        assert_eq!(text_at(&ward, (7, 0), setter(level), 500, 501), Err(21));
        assert_eq!(text_at(&ward, (7, 0), setter(level), 0, usize::MAX), Err(21));
        // The sheet's own refusals, no such node, field, request and leaf, and no room.
        assert_eq!(text_at(torn, (7, 0), setter(level), 500, 0), Err(36));
        assert_eq!(text_at(&long, (7, 0), setter(level), 500, 0), Err(36));
        for at in [(6, 0), (7, 99)] {
            assert_eq!(text_at(&ward, at, setter(level), 500, 0), Err(36));
        }
        for (request, leaf) in [(10, 0), (8, 0), (0, 10)] {
            assert_eq!(text_at(&ward, (7, 0), (request, leaf, level), 500, 0), Err(36));
        }
        assert_eq!(text_at(&ward, (7, 0), setter(level), 0, 0), Err(36));
    }
    // Level 8 is one, and leaves each of these its own number.
    assert_eq!(text_at(torn, (7, 0), setter(MOST), 500, 0), Err(2));
    assert_eq!(text_at(&long, (7, 0), setter(MOST), 500, 0), Err(1));
    assert_eq!(text_at(&ward, (6, 0), setter(MOST), 500, 0), Err(15));
    assert_eq!(text_at(&ward, (7, 0), (10, 0, MOST), 500, 0), Err(15));
    assert_eq!(text_at(&ward, (7, 0), setter(MOST), 0, 0), Err(22));
}

/// The same over an index, and for a field by its numbers, of which the length is then 0.
#[test]
fn levels_above_8_over_an_index() {
    let ward = sheet(WARD);
    let (_, whole) = index(&ward, index_size(ward.len()));
    let first = node(&ward, &whole, 0).expect("there is a node").3;
    let (field, _) = field(&ward, first, FIELD_SIZE);
    let no_text = |number| (number, 0, String::new());
    for level in TOO_HIGH {
        for parts in [(&ward[..], &whole[..]), (&ward[1..], &whole[..]), (&ward[..], &[][..])] {
            for at in [(7, 0), (6, 0), (7, 99)] {
                assert_eq!(text_in(parts, at, setter(level), 500, 5), Err(36));
                assert_eq!(text_in(parts, at, setter(level), 500, 501), Err(21));
            }
            assert_eq!(text_in(parts, (7, 0), (10, 0, level), 500, 5), Err(36));
            for numbers in [&field[..], &field[1..], &[]] {
                assert_eq!(text_of(parts, numbers, setter(level), 500), no_text(36));
                assert_eq!(text_of(parts, numbers, setter(level), 0), no_text(36));
                assert_eq!(text_of(parts, numbers, (10, 0, level), 500), no_text(36));
            }
        }
    }
    assert_eq!(text_of((&ward, &whole), &field[1..], setter(MOST), 500), no_text(15));
    assert_eq!(text_of((&ward, &whole), &field, (10, 0, MOST), 500), no_text(15));
}

/// Level 8 is answered, in a buffer that is just as long as the text with its spaces; one byte less is 22.
#[test]
fn level_8() {
    let ward = sheet(WARD);
    let (_, whole) = index(&ward, index_size(ward.len()));
    let first = node(&ward, &whole, 0).expect("there is a node").3;
    let (field, _) = field(&ward, first, FIELD_SIZE);
    let plain = text_at(&ward, (7, 0), setter(0), 500, 0).expect("there is a setter");
    let moved: String = plain.lines().map(|line| format!("{}{line}\n", " ".repeat(32))).collect();
    let length = moved.len();
    for kept in [0, 9] {
        assert_eq!(text_at(&ward, (7, 0), setter(MOST), kept + length, kept), Ok(moved.clone()));
        assert_eq!(text_in((&ward, &whole), (7, 0), setter(MOST), kept + length, kept), Ok(moved.clone()));
        assert_eq!(text_at(&ward, (7, 0), setter(MOST), kept + length - 1, kept), Err(22));
        assert_eq!(text_in((&ward, &whole), (7, 0), setter(MOST), kept + length - 1, kept), Err(22));
    }
    assert_eq!(text_of((&ward, &whole), &field, setter(MOST), length), (0, length, moved));
    assert_eq!(text_of((&ward, &whole), &field, setter(MOST), length - 1), (22, length, String::new()));
}

#[test]
fn the_size_of_an_index() {
    assert!((0..70_000).chain([usize::MAX, usize::MAX / 2 + 1]).all(|length| index_size(length) <= 1793));
}

/// An index of any length is answered as its sheet is admitted; the whole one has the nodes.
#[test]
fn an_index_of_any_length() {
    let ward = sheet(WARD);
    let size = index_size(ward.len());
    for length in (0..size + 3).step_by(1 + size / 200) {
        assert_eq!(index(&ward, length).0, ADMITTED);
        assert_eq!(index(&ward[..ward.len() - 1], length).0, admit(&ward[..ward.len() - 1]));
    }
    assert_eq!(admit(&ward), ADMITTED);
    assert_eq!(admit(&ward[..ward.len() - 1]), (2, 33, 1));
    let (answer, whole) = index(&ward, size);
    assert_eq!(answer, ADMITTED);
    assert_eq!(node(&ward, &whole, 0).map(|node| node.0), Some(7));
    assert_eq!(node(&ward, &whole, 1).map(|node| node.0), Some(9));
    assert_eq!([2, 63, 64, usize::MAX].map(|number| node(&ward, &whole, number)), [None; 4]);
}

/// The index of the bytes, one that is cut, damaged or random, over the bytes and over damaged ones.
#[test]
fn any_index_over_any_bytes() {
    let ward = sheet(WARD);
    let size = index_size(ward.len());
    let (_, whole) = index(&ward, size);
    let mut random = Random(7);
    for round in 0..20_000 {
        let mut numbers = whole[..if round % 3 == 0 { random.below(size + 1) } else { size }].to_vec();
        for _ in 0..random.below(4) {
            if !numbers.is_empty() {
                let at = random.below(numbers.len().min(40));
                numbers[at] = if random.below(2) == 0 { random.next() } else { random.below(ward.len() + 9) as u64 };
            }
        }
        let mut bytes = ward[..if round % 5 == 0 { random.below(ward.len() + 1) } else { ward.len() }].to_vec();
        if round % 2 == 0 && !bytes.is_empty() {
            let at = random.below(bytes.len());
            bytes[at] = b"RNPFGTSUVW 0123456789\n"[random.below(22)];
        }
        answer_anything(&bytes, &numbers, &mut random);
        text_of_anything(&bytes, &numbers, &mut random);
        verdict_on_anything(&bytes, &numbers, &mut random);
        node(&bytes, &numbers, random.below(3));
    }
}

/// There is a verdict on a slot with bits alone: no such node, too few numbers, numbers of nothing or of a group, and slots of
/// other kinds are 15.
#[test]
fn verdicts_by_numbers() {
    let ward = sheet(WARD);
    let (_, whole) = index(&ward, index_size(ward.len()));
    let first = node(&ward, &whole, 0).expect("there is a node").3;
    let (field, _) = field(&ward, first, FIELD_SIZE);
    let parts = (&ward[..], &whole[..]);
    assert_eq!(verdict_on(parts, 0, &field), (0, 0));
    assert!([2, 63, 64, usize::MAX].iter().all(|number| verdict_on(parts, *number, &field) == (15, 0)));
    assert!((0..FIELD_SIZE).all(|length| verdict_on(parts, 0, &field[..length]) == (15, 0)));
    let with = |at: usize, number: u64| {
        let mut changed = field.clone();
        changed[at] = number;
        verdict_on(parts, 0, &changed).0
    };
    let (is_slot, kind) = (0, 5);
    assert!([0, 2, 3, u64::MAX].iter().all(|number| with(is_slot, *number) == 15));
    let told: Vec<u64> = (0..=18).filter(|number| with(kind, *number) == 0).collect();
    assert_eq!(told, [1, 2, 3, 4, 5, 6, 7, 8, 9, 10, 11, 15]);
}

/// At every position of any bytes there is a field whose name lies in them, or none.
#[test]
fn fields_at_every_position() {
    let ward = sheet(WARD);
    let mut fields = 0;
    for at in 0..=ward.len() + 2 {
        if let (_, Some((kind, name, name_len, next))) = field(&ward, at, FIELD_SIZE) {
            assert!(kind <= 19 && at < name && name + name_len < next && next <= ward.len());
            fields += usize::from(at == 0 || ward[at - 1] == b'\n');
        }
    }
    assert_eq!(fields, 8);
    assert!([usize::MAX, usize::MAX - 1, 1 << 32].iter().all(|at| field(&ward, *at, FIELD_SIZE).1.is_none()));
    let mut random = Random(8);
    for _ in 0..20_000 {
        let mut bytes = ward.clone();
        let at = random.below(bytes.len());
        bytes[at] = random.next() as u8;
        field(&bytes, random.below(bytes.len() + 1), random.below(FIELD_SIZE + 2));
    }
}

/// A field's numbers are put where there is room for all of them; else nothing is, and its values are the same.
#[test]
fn numbers_of_any_length() {
    let ward = sheet(WARD);
    let (_, whole) = index(&ward, index_size(ward.len()));
    let first = node(&ward, &whole, 0).expect("there is a node").3;
    let (numbers, values) = field(&ward, first, FIELD_SIZE);
    assert!(values.is_some());
    for length in 0..2 * FIELD_SIZE {
        let (others, same) = field(&ward, first, length);
        assert_eq!(same, values);
        let put = if length < FIELD_SIZE { &[][..] } else { &numbers };
        assert!(others.starts_with(put) && others[put.len()..].iter().all(|number| *number == u64::from(GUARD)));
    }
}
