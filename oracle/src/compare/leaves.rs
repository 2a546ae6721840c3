//! Names, numbers and lines.

use super::placed::{refuses, writes};
use crate::boundary::leaves as kitlubas;
use crate::codegen::exact;
use crate::codegen::FormattedText::{self, BlankLine, Branch, Indent, Line};
use crate::names;
use crate::numbers::landmarks;
use crate::random::Random;
use crate::report::{shown, Report};

/// `camel_to_snake_case`, the name of a default, and `module_name`.
pub fn names(times: u64) -> Report {
    let mut report = Report::new("names");
    for name in [names::short(), names::keywords(), names::accents_at_bounds()].concat() {
        one_name(&mut report, &name);
    }
    (0..=u8::MAX).for_each(|byte| any_bytes(&mut report, &[byte]));
    (0..=u16::MAX).for_each(|pair| any_bytes(&mut report, &pair.to_be_bytes()));
    for byte in 0..=u8::MAX {
        any_bytes(&mut report, &[b'b', 0xc3, byte, b'D']);
        any_bytes(&mut report, &[b'b', byte, 0x84, b'D']);
        any_bytes(&mut report, &[0xc3, 0x84, byte]);
    }
    let random = &mut Random::new(1);
    for length in 0..=64 {
        for _ in 0..40 * times {
            one_name(&mut report, &names::random(random, length));
            one_name(&mut report, &names::accented(random, length));
        }
        let ascii: String = (0..length).map(|_| random.below(128) as u8 as char).collect();
        one_name(&mut report, &ascii);
    }
    for length in [65, 66, 100] {
        any_bytes(&mut report, names::random(random, length).as_bytes());
        any_bytes(&mut report, names::accented(random, length).as_bytes());
    }
    for _ in 0..4_000 * times {
        any_bytes(&mut report, &names::damaged(random));
    }
    report
}

/// Bytes that may be no name.
fn any_bytes(report: &mut Report, bytes: &[u8]) {
    match names::taken(bytes) {
        Some(name) => one_name(report, name),
        None => no_name(report, bytes),
    }
}

fn one_name(report: &mut Report, name: &str) {
    let bytes = name.as_bytes();
    let snake = exact::camel_to_snake_case(name);
    writes(report, snake.as_bytes(), |at, buf| kitlubas::snake(at, buf, bytes), || format!("snake {name}"));
    let default = names::default_name(name);
    writes(report, default.as_bytes(), |at, buf| kitlubas::default_name(at, buf, bytes), || format!("default {name}"));
    let module = exact::module_name(name);
    writes(report, module.as_bytes(), |at, buf| kitlubas::module_name(at, buf, bytes), || format!("module {name}"));
}

fn no_name(report: &mut Report, bytes: &[u8]) {
    let what = || format!("no name {}", shown(bytes));
    refuses(report, |at, buf| kitlubas::snake(at, buf, bytes), what);
    refuses(report, |at, buf| kitlubas::default_name(at, buf, bytes), what);
    refuses(report, |at, buf| kitlubas::module_name(at, buf, bytes), what);
}

/// Numbers as `format!` writes them.
pub fn numbers(times: u64) -> Report {
    let mut report = Report::new("numbers");
    (0..=u8::MAX).for_each(|n| one_signed(&mut report, 8, n.into(), (n as i8).to_string()));
    (0..=u16::MAX).for_each(|n| one_signed(&mut report, 16, n.into(), (n as i16).to_string()));
    (0..=u16::MAX).for_each(|n| one_number(&mut report, n.into()));
    landmarks().into_iter().for_each(|n| every_width(&mut report, n));
    let random = &mut Random::new(2);
    for _ in 0..5_000 * times {
        every_width(&mut report, random.number());
    }
    for width in (0..=128).filter(|width| ![8, 16, 32, 64].contains(width)) {
        refuses(&mut report, |at, buf| kitlubas::signed(at, buf, width, 5), || format!("width {width}"));
    }
    report
}

fn every_width(report: &mut Report, n: u64) {
    one_number(report, n);
    one_signed(report, 8, n, (n as i8).to_string());
    one_signed(report, 16, n, (n as i16).to_string());
    one_signed(report, 32, n, (n as i32).to_string());
    one_signed(report, 64, n, (n as i64).to_string());
}

fn one_number(report: &mut Report, n: u64) {
    writes(report, n.to_string().as_bytes(), |at, buf| kitlubas::number(at, buf, n), || format!("number {n}"));
}

fn one_signed(report: &mut Report, width: u32, n: u64, text: String) {
    writes(report, text.as_bytes(), |at, buf| kitlubas::signed(at, buf, width, n), || format!("{n} at {width} bits"));
}

/// `stringify` of random trees of lines.
pub fn lines(times: u64) -> Report {
    let mut report = Report::new("lines");
    one_tree(&mut report, &Branch(Vec::new()));
    one_tree(&mut report, &Indent(Box::new(Line(String::new()))));
    one_tree(&mut report, &Indent(Box::new(BlankLine)));
    let random = &mut Random::new(3);
    for _ in 0..5_000 * times {
        let depth = random.between(0, 6);
        one_tree(&mut report, &tree(random, depth));
    }
    report
}

/// A tree of lines at most `depth` deep.
fn tree(random: &mut Random, depth: usize) -> FormattedText {
    match random.below(if depth == 0 { 3 } else { 8 }) {
        0 => BlankLine,
        1 => Line(String::new()),
        2 => {
            let length = random.between(0, 90);
            Line(random.text(b"self.builder {}();<>_,0123456789 ", length))
        }
        3..=5 => Indent(Box::new(tree(random, depth - 1))),
        _ => Branch((0..random.below(5)).map(|_| tree(random, depth - 1)).collect()),
    }
}

fn one_tree(report: &mut Report, tree: &FormattedText) {
    let text = exact::stringify(tree);
    writes(report, text.as_bytes(), |at, buf| write_tree(tree, at, buf), || shown(text.as_bytes()));
}

/// The tree written line by line with an indent count.
fn write_tree(tree: &FormattedText, at: usize, buf: &mut [u8]) -> usize {
    match write_lines(tree, 0, at, buf) {
        None => kitlubas::no_lines(at, buf),
        Some(at) => at,
    }
}

/// The fill count after the tree's lines, if it has any.
fn write_lines(tree: &FormattedText, indent: usize, at: usize, buf: &mut [u8]) -> Option<usize> {
    match tree {
        Indent(inner) => write_lines(inner, indent + 1, at, buf),
        Line(line) => Some(kitlubas::line(at, buf, indent, line.as_bytes())),
        BlankLine => Some(kitlubas::blank_line(at, buf)),
        Branch(parts) => parts
            .iter()
            .fold(None, |done: Option<usize>, part| write_lines(part, indent, done.unwrap_or(at), buf).or(done)),
    }
}
