//! The program `accessors` once more, through this crate: reads a sheet from standard input, and writes a header and the
//! text of each accessor of each field.
//!
//! ```text
//! cargo run --release --example all_texts < ../examples/ward.sheet
//! ```

use kitlubas::{Field, Form, Kind, Refusal, Request, Sheet, Side};
use std::io::{self, Read, Write};

/// What is asked of a slot, each with its header up to the name.
const OF_A_SLOT: [(&str, Request); 5] = [
    ("# getter reader ", Request::Getter { side: Side::Reader, form: Form::Plain }),
    ("# getter builder ", Request::Getter { side: Side::Builder, form: Form::Plain }),
    ("# setter ", Request::Setter),
    ("# haser reader ", Request::Haser { side: Side::Reader }),
    ("# haser builder ", Request::Haser { side: Side::Builder }),
];

const OF_A_GROUP: [(&str, Request); 1] = [("# zero ", Request::Zeroing)];

/// The longest text that is written; a longer one is refused.
const TEXT_SIZE: usize = 65_536;

/// How much is collected before it is written.
const PIECE_SIZE: usize = 65_536;

fn main() -> io::Result<()> {
    let mut bytes = Vec::new();
    io::stdin().read_to_end(&mut bytes)?;
    all_texts(&bytes, &mut io::stdout().lock())
}

/// Writes every accessor of a sheet, or that it is refused.
pub fn all_texts(bytes: &[u8], out: &mut impl Write) -> io::Result<()> {
    let sheet = match Sheet::admit(bytes) {
        Ok(sheet) => sheet,
        Err(refusal) => {
            let (line, column) = (refusal.line.unwrap_or(0), refusal.column.unwrap_or(0));
            return writeln!(out, "refused {} line {line} column {column}", refusal.number);
        }
    };
    let mut piece = Vec::with_capacity(2 * PIECE_SIZE);
    for field in sheet.nodes().flat_map(|node| node.fields()) {
        let parts = if field.kind() == Kind::Group { &OF_A_GROUP[..] } else { &OF_A_SLOT };
        for (header, request) in parts {
            for bytes in [header, field.name(), "\n"] {
                piece.extend_from_slice(bytes.as_bytes());
            }
            write_text(&field, *request, &mut piece);
        }
        if PIECE_SIZE <= piece.len() {
            out.write_all(&piece)?;
            piece.clear();
        }
    }
    out.write_all(&piece)
}

/// Puts a text behind a piece, or that it is refused.
fn write_text(field: &Field<'_, '_>, request: Request, piece: &mut Vec<u8>) {
    let start = piece.len();
    let number = match field.write_text(request, piece) {
        Ok(()) if piece.len() - start <= TEXT_SIZE => return,
        Ok(()) => Refusal::NO_ROOM,
        Err(refusal) => refusal.number,
    };
    piece.truncate(start);
    piece.extend_from_slice(format!("refused {number}\n").as_bytes());
}
