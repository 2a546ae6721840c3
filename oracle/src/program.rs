//! What the programs `accessors` and `verdicts` must print for a sheet.

use crate::answer::{put, text_of_field, Request};
use crate::codegen::GeneratorContext;
use crate::context::context;
use crate::sheet::read::{read, Refusal};
use crate::sheet::{Field, Node, Sheet};
use crate::verdict::verdict;

/// The size of the buffer of `accessors`.
pub const BUFFER: usize = 65_536;

pub fn accessors(bytes: &[u8]) -> Vec<u8> {
    read(bytes).map_or_else(refused, |sheet| accessors_of(&sheet))
}

/// Each slot with bits and its verdict: those that disagree, the others, and how many there are of both.
pub fn verdicts(bytes: &[u8]) -> Vec<u8> {
    read(bytes).map_or_else(refused, |sheet| verdicts_of(&sheet))
}

fn refused(Refusal { number, line, column }: Refusal) -> Vec<u8> {
    format!("refused {number} line {line} column {column}\n").into_bytes()
}

fn verdicts_of(sheet: &Sheet) -> Vec<u8> {
    let ctx = context(sheet);
    let (mut disagreeing, mut others) = (Vec::new(), Vec::new());
    for node in &sheet.nodes {
        for field in &node.fields {
            if let Some(verdict) = verdict(&ctx, node, field) {
                let lines = if verdict.disagrees() { &mut disagreeing } else { &mut others };
                lines.push(format!("node {} {}: {}\n", node.id, field.name(), verdict.words()));
            }
        }
    }
    let disagree = disagreeing.len();
    let slots = disagree + others.len();
    let last = format!("{slots} slots, {disagree} disagree\n");
    [disagreeing.concat(), others.concat(), last].concat().into_bytes()
}

fn accessors_of(sheet: &Sheet) -> Vec<u8> {
    let ctx = context(sheet);
    let mut buffer = vec![0; BUFFER];
    let mut output = Vec::new();
    for node in &sheet.nodes {
        for field in &node.fields {
            for (header, request) in parts(field) {
                output.extend(format!("# {header} {}\n", field.name()).bytes());
                output.extend(part(&ctx, node, field, request, &mut buffer));
            }
        }
    }
    output
}

fn parts(field: &Field) -> Vec<(&'static str, Request)> {
    match field {
        Field::Slot(_) => vec![
            ("getter reader", Request::Getter { reader: true, function: false }),
            ("getter builder", Request::Getter { reader: false, function: false }),
            ("setter", Request::Setter),
            ("haser reader", Request::Haser { reader: true }),
            ("haser builder", Request::Haser { reader: false }),
        ],
        Field::Group(_) => vec![("zero", Request::Zero)],
    }
}

fn part(ctx: &GeneratorContext, node: &Node, field: &Field, request: Request, buffer: &mut [u8]) -> Vec<u8> {
    let text = text_of_field(ctx, node, field, request);
    match text.and_then(|text| put(&text, 0, buffer).map_err(|refusal| refusal.number)) {
        Ok(fill) => buffer[..fill].to_vec(),
        Err(number) => format!("refused {number}\n").into_bytes(),
    }
}
