//! Names, numbers and lines as measured cases.

use super::{discard, Round, Side};
use crate::boundary::leaves::{line, module_name, number, signed, snake};
use crate::codegen::exact;
use crate::codegen::FormattedText::{Indent, Line};
use std::hint::black_box;

const NAMES: [&str; 6] = ["snake-short", "snake-64", "module-keyword", "number-20-digits", "signed-64-bits", "line"];

const LONG: &str = "aPatientTransportFromTheWardToTheOperatingTheatreOfTheRegionalHo";
const LINE: &str = "self.builder.set_data_field_mask::<u16>(12, value as u16, 2);";

/// The cases of a side; none for the Rust from bytes, which has no sheet here.
pub fn cases(side: Side) -> Option<Vec<(String, Round)>> {
    let work = match side {
        Side::Rust => rust,
        Side::RustFromBytes => return None,
        Side::Kitlubas => kitlubas,
    };
    NAMES.iter().map(|name| Some((name.to_string(), work(name)?))).collect()
}

fn rust(name: &str) -> Option<Round> {
    let line = Indent(Box::new(Line(LINE.to_string())));
    Some(match name {
        "snake-short" => Box::new(|| discard(exact::camel_to_snake_case(black_box("bedId")))),
        "snake-64" => Box::new(|| discard(exact::camel_to_snake_case(black_box(LONG)))),
        "module-keyword" => Box::new(|| discard(exact::module_name(black_box("type")))),
        "number-20-digits" => Box::new(|| discard(black_box(u64::MAX).to_string())),
        "signed-64-bits" => Box::new(|| discard(black_box(i64::MIN).to_string())),
        "line" => Box::new(move || discard(exact::stringify(black_box(&line)))),
        _ => return None,
    })
}

fn kitlubas(name: &str) -> Option<Round> {
    let mut buf = [0; 256];
    Some(match name {
        "snake-short" => Box::new(move || discard(snake(0, black_box(&mut buf), black_box(b"bedId")))),
        "snake-64" => Box::new(move || discard(snake(0, black_box(&mut buf), black_box(LONG.as_bytes())))),
        "module-keyword" => Box::new(move || discard(module_name(0, black_box(&mut buf), black_box(b"type")))),
        "number-20-digits" => Box::new(move || discard(number(0, black_box(&mut buf), black_box(u64::MAX)))),
        "signed-64-bits" => Box::new(move || discard(signed(0, black_box(&mut buf), 64, black_box(1 << 63)))),
        "line" => Box::new(move || discard(line(0, black_box(&mut buf), 1, black_box(LINE.as_bytes())))),
        _ => return None,
    })
}
