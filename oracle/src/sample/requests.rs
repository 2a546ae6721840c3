//! Single requests: a sheet after a line with its length in decimal, and its requests after a line with theirs. A request is the
//! letter Q and seven numbers in 21 columns each: the node's id, the place, the request's number at the boundary, the leaf, the
//! level of indentation, the fill count and the length of a buffer of points. An answer is a line with the refusal's number, its
//! line, its column and the fill count afterwards, and the whole buffer with a byte 10 after it.

use super::Sample;
use crate::answer::{answer, Request, State};
use crate::boundary::answer::{leaf, number};
use crate::generate::corners::{bound, group, node, slot};
use crate::sheet::print::{numbers, print};
use crate::sheet::read::Refusal;
use crate::sheet::{Node, Sheet, Type, ENUM, FLOAT32, FLOAT64};

/// The longest buffer that the program has.
const LONGEST: usize = 4_096;
const OWNED: Request = Request::Type { leaf: 4 };
const GETTER: Request = Request::Getter { reader: true, function: false };

pub fn sample() -> Sample {
    let mut sample = Sample::default();
    let asked =
        [types(), accessors(), accents(), places(), fill_counts(), levels(), profiles(), refused(), own_parent()];
    asked.iter().for_each(|requests| requests.end(&mut sample));
    for bytes in bad() {
        bad_sheet(bytes).end(&mut sample);
    }
    sample
}

/// Requests of a sheet, with their answers.
struct Requests {
    sheet: Vec<u8>,
    asked: Vec<u8>,
    answers: Vec<u8>,
}

impl Requests {
    fn of_bytes(sheet: Vec<u8>) -> Requests {
        Requests { sheet, asked: Vec::new(), answers: Vec::new() }
    }

    fn of(nodes: Vec<Node>) -> Requests {
        Requests::of_bytes(print(&Sheet::of(nodes)))
    }

    /// A request at a fill count of a buffer, at level 0.
    fn ask(&mut self, node: u64, place: u64, request: Request, fill: usize, length: usize) {
        self.ask_at(node, place, request, State::flat(fill), length);
    }

    /// A request at a state of a buffer.
    fn ask_at(&mut self, node: u64, place: u64, request: Request, state: State, length: usize) {
        let State { fill, level } = state;
        let columns = [node, place, number(request), leaf(request), level as u64, fill as u64, length as u64];
        self.asked.extend(numbers('Q', &columns).bytes());
        self.asked.push(b'\n');
        let mut buffer = vec![b'.'; length];
        let (refusal, fill) = match answer(&self.sheet, node, place, request, state, &mut buffer) {
            Ok(fill) => (Refusal::nowhere(0), fill),
            Err(refusal) => (refusal, fill),
        };
        let Refusal { number, line, column } = refusal;
        self.answers.extend(format!("{number} {line} {column} {fill}\n").bytes());
        self.answers.extend(buffer);
        self.answers.push(b'\n');
    }

    /// The length of a request's text at a level; 0 where it is refused.
    fn length(&self, node: u64, place: u64, request: Request, level: usize) -> usize {
        answer(&self.sheet, node, place, request, State { fill: 0, level }, &mut [0; LONGEST]).unwrap_or(0)
    }

    /// A request with one byte in front of its text and two behind.
    fn beside(&mut self, node: u64, place: u64, request: Request) {
        let length = self.length(node, place, request, 0);
        self.ask(node, place, request, 1, length + 3);
    }

    fn end(&self, sample: &mut Sample) {
        sample.sheet(&self.sheet, &[]);
        sample.sheet(&self.asked, &self.answers);
    }
}

/// Types' texts at every leaf: structs without and with a brand, enums, lists, interfaces, parameters, Text, numbers.
fn types() -> Requests {
    let list = |typ: Type| Type::List(Box::new(typ));
    let parameter = Type::Parameter { scope_id: 7, index: 0 };
    let types = [
        Type::Struct(2, Vec::new()),
        Type::Struct(3, vec![bound(3, vec![Type::Plain(12)])]),
        Type::Struct(3, vec![bound(3, vec![parameter.clone()])]),
        Type::Enum(4, Vec::new()),
        list(Type::Struct(2, Vec::new())),
        list(list(Type::Plain(1))),
        list(Type::Enum(4, Vec::new())),
        Type::Interface(5, Vec::new()),
        parameter,
        Type::Plain(12),
        Type::Plain(4),
        Type::AnyPointer,
    ];
    let bed = node(7, 0, "bed", &["T"]).slots(types.map(|typ| slot("ward", typ)));
    let count = bed.fields.len() as u64;
    let others = [node(2, 0, "ward", &[]), node(3, 7, "bed::plan", &["A"]), node(4, 7, "bed::Status", &[])];
    let nodes = [vec![bed], others.to_vec(), vec![node(5, 0, "nurse", &[])]].concat();
    let mut requests = Requests::of(nodes);
    for place in 0..count {
        (0..10).for_each(|leaf| requests.beside(7, place, Request::Type { leaf }));
    }
    requests
}

/// Both forms and both sides of getters, setters, hasers and zeroing. A Bool whose default is an Int8 is masked with it by its
/// setter, and has no getter.
fn accessors() -> Requests {
    let mut slots = vec![
        slot("isFree", Type::Plain(1)).default(1, 1, true),
        slot("isClean", Type::Plain(1)).default(2, 3, false),
        slot("level", Type::Plain(2)).default(2, 253, true),
        slot("weight", Type::Plain(11)).default(11, 1 << 63, true),
        slot("status", Type::Enum(4, Vec::new())).default(15, 2, true),
        slot("ward", Type::Struct(2, Vec::new())).option(),
        slot("wardName", Type::Plain(12)).default(12, 0, true),
        slot("nurse", Type::Interface(2, Vec::new())),
    ];
    slots.push(slot("beds", Type::List(Box::new(Type::Plain(7)))).tagged(1));
    slots.push(slot("nothing", Type::Plain(0)).tagged(0));
    let count = slots.len() as u64;
    let mut plan =
        node(9, 7, "bed::plan", &[]).slots([slot("day", Type::Plain(7)), slot("note", Type::Plain(12)).at(1)]);
    (plan.tag_count, plan.tag_offset) = (2, 3);
    let bed = node(7, 0, "bed", &[]).slots(slots).group(group("plan", 9));
    let mut requests = Requests::of(vec![bed, plan, node(2, 0, "ward", &[]), node(4, 7, "bed::Status", &[])]);
    for place in 0..=count {
        Request::PARTS.into_iter().for_each(|request| requests.beside(7, place, request));
    }
    requests
}

/// Names with accents: a flag, an optional Text with a default, a struct, and a group.
fn accents() -> Requests {
    let slots = [
        slot("möbelÄnderung", Type::Plain(1)).default(1, 1, true),
        slot("étatÄ", Type::Plain(12)).default(12, 0, true).option(),
        slot("straßeNr", Type::Struct(7, Vec::new())),
    ];
    let bed = node(7, 0, "bed", &[]).slots(slots).group(group("Übergabe", 9));
    let mut requests = Requests::of(vec![bed, node(9, 7, "bed::plan", &[]).slots([slot("îlot", Type::Plain(7))])]);
    for place in 0..4 {
        Request::PARTS.into_iter().for_each(|request| requests.beside(7, place, request));
    }
    requests
}

/// A bed with a flag and a group.
fn bed() -> Requests {
    let bed = node(7, 0, "bed", &[]).slots([slot("isFree", Type::Plain(1)).default(1, 1, true)]);
    Requests::of(vec![bed.group(group("plan", 9)), node(9, 7, "bed::plan", &[])])
}

/// Nodes, fields and leaves that are not there.
fn places() -> Requests {
    let mut requests = bed();
    for (node, place) in [(8, 0), (0, 0), (u64::MAX, 0), (7, 2), (7, u64::MAX), (9, 0)] {
        requests.beside(node, place, OWNED);
        requests.beside(node, place, Request::Setter);
    }
    for leaf in [10, u64::MAX] {
        requests.beside(7, 0, Request::Type { leaf });
        requests.beside(7, 1, Request::Type { leaf });
    }
    requests
}

/// A text from 0 on, in the middle, with exact room, with one byte too few, at the end, and one past it.
fn fill_counts() -> Requests {
    let mut requests = bed();
    for request in [OWNED, GETTER, Request::Setter] {
        let length = requests.length(7, 0, request, 0);
        for (fill, size) in [
            (0, length),
            (0, length + 4),
            (3, length + 5),
            (3, length + 3),
            (3, length + 2),
            (0, length - 1),
            (length, length),
            (length + 1, length),
            (usize::MAX, 2),
            (0, 0),
            (1, 0),
        ] {
            requests.ask(7, 0, request, fill, size);
        }
    }
    requests
}

/// Texts at levels of indentation: every request of a flag, of an optional Text with a default, of a struct, a Void and two
/// groups at level 1 and at 8, with two bytes in front and one behind; a setter with exact room and with one byte too few; 36 at
/// 9, of what is there and what is not, and 21 before it.
fn levels() -> Requests {
    let slots = [
        slot("isFree", Type::Plain(1)).default(1, 1, true),
        slot("wardName", Type::Plain(12)).default(12, 0, true).option(),
        slot("ward", Type::Struct(7, Vec::new())).tagged(1),
        slot("nothing", Type::Plain(0)),
    ];
    let bed = node(7, 0, "bed", &[]).slots(slots).group(group("plan", 9)).group(group("none", 8));
    let plan = node(9, 0, "bed::plan", &[]).slots([slot("day", Type::Plain(7)), slot("note", Type::Plain(12)).at(1)]);
    let mut requests = Requests::of(vec![bed, plan, node(8, 0, "bed::none", &[])]);
    for place in 0..6 {
        for request in Request::PARTS.into_iter().chain([OWNED]) {
            for level in [1, 8] {
                let length = requests.length(7, place, request, level);
                requests.ask_at(7, place, request, State { fill: 2, level }, length + 3);
            }
        }
    }
    let length = requests.length(7, 0, Request::Setter, 8);
    requests.ask_at(7, 0, Request::Setter, State { fill: 0, level: 8 }, length);
    requests.ask_at(7, 0, Request::Setter, State { fill: 0, level: 8 }, length - 1);
    for (node, place, fill, level) in [(7, 0, 0, 9), (77, 0, 0, 9), (7, 4, 0, 9), (7, 0, 2, usize::MAX), (7, 0, 10, 9)]
    {
        requests.ask_at(node, place, Request::Setter, State { fill, level }, 9);
    }
    requests
}

/// Both setters: where they differ, which is with -0.0 of both widths, an enum's 2 without its flag and its 0 with it; where
/// they do not; where the getter is refused; with defaults of another type; of a group. The paired one of the first slot at
/// level 2 with exact room and with one byte too few.
fn profiles() -> Requests {
    let status = || slot("status", Type::Enum(4, Vec::new()));
    let slots = [
        status().default(ENUM, 2, false).tagged(1),
        status().default(ENUM, 0, true),
        status().default(ENUM, 2, true),
        status().default(ENUM, 0, false),
        slot("weight", Type::Plain(FLOAT32)).default(FLOAT32, 1 << 31, true),
        slot("weight", Type::Plain(FLOAT64)).default(FLOAT64, 1 << 63, false).option(),
        slot("isFree", Type::Plain(1)).default(1, 1, true).option(),
        slot("isFree", Type::Plain(1)).default(2, 3, false),
        slot("weight", Type::Plain(FLOAT32)).default(FLOAT64, 1 << 63, true),
        slot("level", Type::Plain(7)).default(ENUM, 2, false),
        status().default(7, 2, true),
        status().default(7, 2, false),
    ];
    let count = slots.len() as u64;
    let bed = node(7, 0, "bed", &[]).slots(slots).group(group("plan", 9));
    let mut requests = Requests::of(vec![bed, node(4, 7, "bed::Status", &[]), node(9, 7, "bed::plan", &[])]);
    for place in 0..=count {
        [Request::Setter, Request::PairedSetter].into_iter().for_each(|request| requests.beside(7, place, request));
    }
    let length = requests.length(7, 0, Request::PairedSetter, 2);
    for length in [length + 1, length] {
        requests.ask_at(7, 0, Request::PairedSetter, State { fill: 1, level: 2 }, length);
    }
    requests
}

/// Refusals of requests, 5 to 14: each field is met by one of them, or by two.
fn refused() -> Requests {
    let list = Type::List(Box::new(Type::AnyPointer));
    let slots = vec![
        slot("missing", Type::Struct(77, Vec::new())),
        slot("anything", list),
        slot("owner", Type::Parameter { scope_id: 7, index: 0 }),
        slot("other", Type::Parameter { scope_id: 7, index: 1 }),
        slot("plan", Type::Struct(7, vec![bound(7, Vec::new())])),
        slot("isFree", Type::Plain(1)).option(),
        slot("isClean", Type::Plain(1)).default(0, 0, false),
        slot("status", Type::Enum(7, Vec::new())).default(7, 2, true),
        slot("level", Type::Plain(7)).default(1, 1, true),
    ];
    let count = slots.len() as u64;
    let mut other = node(9, 7, "bed::plan", &[]);
    other.is_struct = false;
    let bed = node(7, 0, "bed", &["T"]).slots(slots).group(group("plan", 9)).group(group("lost", 77));
    let mut requests = Requests::of(vec![bed, other]);
    for place in 0..count + 2 {
        for request in [OWNED, Request::Type { leaf: 5 }, GETTER, Request::Setter, Request::Zero] {
            requests.beside(7, place, request);
        }
    }
    requests
}

/// A node that is its own parent: 4.
fn own_parent() -> Requests {
    let mut requests = Requests::of(vec![node(7, 7, "bed", &[]).slots([slot("plan", Type::Struct(7, Vec::new()))])]);
    [OWNED, GETTER, Request::Setter].into_iter().for_each(|request| requests.beside(7, 0, request));
    requests
}

/// Bytes that are no sheet: none, a torn one, a byte too many, an id twice, a type with a 17th level, a torn letter, a bad
/// number.
fn bad() -> Vec<Vec<u8>> {
    let whole = bed().sheet;
    let twice = Sheet::of(vec![node(7, 0, "bed", &[]), node(7, 0, "bed", &[])]);
    let deep = (0..16).fold(Type::Plain(1), |inner, _| Type::List(Box::new(inner)));
    let levels = Sheet::of(vec![node(7, 0, "bed", &[]).slots([slot("plan", deep)])]);
    let longer = [&whole[..], b" "].concat();
    let mut torn_letter = print(&Sheet::of(vec![node(7, 0, "bed", &[]).group(group("é", 9))]));
    torn_letter.remove(torn_letter.len() - 2);
    let no_flag = [&whole[..], numbers('N', &[10, 7, 7, 2, 0, 0, 0]).as_bytes(), b" plan\n"].concat();
    let torn = whole[..whole.len() - 1].to_vec();
    vec![Vec::new(), torn, longer, print(&twice), print(&levels), torn_letter, no_flag]
}

/// A sheet's refusal comes before those of its requests, and after 21 and 36.
fn bad_sheet(bytes: Vec<u8>) -> Requests {
    let mut requests = Requests::of_bytes(bytes);
    requests.ask(7, 0, OWNED, 0, 9);
    requests.ask(8, 0, OWNED, 2, 2);
    requests.ask(7, 0, Request::Setter, 3, 2);
    requests.ask_at(7, 0, Request::Setter, State { fill: 0, level: 9 }, 2);
    requests
}
