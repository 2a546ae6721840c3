//! Names, numbers and lines, one case a line: `s NAME` snake name, `c NAME` name of a default, `m NAME` module name;
//! `u` and 16 hex digits, a number; `h`, `i`, `j`, `k` and 2, 4, 8, 16 hex digits, the bits of a signed one; a digit,
//! a space and a text, a `Line` at that indent count; `b`, a `BlankLine`; `z`, `stringify` of no lines.
//! Every answer ends with one byte 10.

use super::Sample;
use crate::codegen::exact;
use crate::codegen::FormattedText::{BlankLine, Branch, Indent, Line};
use crate::names;
use crate::numbers::landmarks;
use crate::random::Random;

pub fn sample() -> Sample {
    let random = &mut Random::new(4);
    let mut cases = Cases(Sample::default());
    for name in names_of_sample(random) {
        cases.name(&name);
    }
    for keyword in exact::RUST_KEYWORDS {
        cases.add(&format!("m {keyword}"), exact::module_name(keyword) + "\n");
    }
    for number in landmarks().into_iter().step_by(5).chain((0..15).map(|_| random.number())) {
        cases.number(number);
    }
    for indent in 0..10 {
        cases.line(indent, "");
        cases.line(indent, "self.builder.set_bool_field(3, value);");
        let length = random.between(1, 80);
        cases.line(indent, &random.text(b"abc {}<>:,_;19", length));
    }
    cases.add("b", exact::stringify(&BlankLine));
    cases.add("z", exact::stringify(&Branch(Vec::new())));
    cases.0
}

/// Document 01's names, keywords in capitals, names with accents at their bounds, and random names of many lengths.
fn names_of_sample(random: &mut Random) -> Vec<String> {
    let mut names =
        ["bedId", "HTTPCode", "wardName", "type", "isFree", "A", "_", "__a", "x9Y"].map(String::from).to_vec();
    names.extend(exact::RUST_KEYWORDS.iter().step_by(4).map(|keyword| keyword.to_ascii_uppercase()));
    names.extend([1, 2, 3, 7, 8, 15, 16, 31, 32, 33, 62, 63, 64].map(|length| names::random(random, length)));
    names.push("Z".repeat(64));
    names.extend(names::accents_at_bounds());
    names.extend([2, 3, 16, 31, 63, 64].map(|length| names::accented(random, length)));
    names
}

struct Cases(Sample);

impl Cases {
    /// A case, and its answer with its byte 10.
    fn add(&mut self, case: &str, answer: String) {
        self.0.stdin.extend(case.bytes());
        self.0.stdin.push(b'\n');
        self.0.stdout.extend(answer.bytes());
    }

    fn name(&mut self, name: &str) {
        self.add(&format!("s {name}"), exact::camel_to_snake_case(name) + "\n");
        self.add(&format!("c {name}"), names::default_name(name) + "\n");
        self.add(&format!("m {name}"), exact::module_name(name) + "\n");
    }

    fn number(&mut self, n: u64) {
        self.add(&format!("u {n:016x}"), format!("{n}\n"));
        self.add(&format!("h {:02x}", n as u8), format!("{}\n", n as i8));
        self.add(&format!("i {:04x}", n as u16), format!("{}\n", n as i16));
        self.add(&format!("j {:08x}", n as u32), format!("{}\n", n as i32));
        self.add(&format!("k {n:016x}"), format!("{}\n", n as i64));
    }

    fn line(&mut self, indent: usize, text: &str) {
        let line = (0..indent).fold(Line(text.to_string()), |inner, _| Indent(Box::new(inner)));
        self.add(&format!("{indent} {text}"), exact::stringify(&line));
    }
}
