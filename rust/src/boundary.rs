//! The calls of the static library. Every `unsafe` of this crate is here.
//!
//! What makes a call sound:
//!
//! - A slice passes as its address and its length. The library reads these elements only, and writes only those of the
//!   slices that are lent exclusively; a Rust slice is valid for just that. Of a slice of length 0 it touches nothing, so
//!   that any address will do.
//! - Every other address is that of a variable here, of the type that the library reads and writes there.
//! - Nothing that is written to overlaps anything else that is passed: each comes from an exclusive borrow.
//! - The library keeps no address after it answers and has no state of its own, so that calls on several threads do not
//!   meet. It calls nothing but `memcpy` and `memset`, and does not unwind.
//!
//! It is proved for every value of every argument, so that nothing is left for a caller to check: an index that belongs
//! to other bytes gives other answers, and still touches only what is lent.
#![allow(unsafe_code)]

// Each package that has these declarations calls some of the functions.
#[allow(dead_code)]
mod declarations;

use crate::{Asked, NodeId, Place, Refusal};
use std::ops::Range;

/// How many numbers the library has for a field.
const FIELD_SIZE: usize = 14;

/// The most bytes that a name has in snake case.
const SNAKE_SIZE: usize = 127;

/// The most bytes that a row grows by where its numbers are put into their columns: an N row has seven.
const ROW_GROWTH: usize = 7 * 21;

/// What the library tells of a node.
pub struct NodeRow {
    pub id: NodeId,
    /// Where its module stands in the sheet.
    pub module: Range<usize>,
    /// Where its first field stands.
    pub fields: usize,
}

/// What the library has read of a field: numbers that only it looks into.
pub type FieldNumbers = [u64; FIELD_SIZE];

/// What the library tells of a field.
pub struct FieldRow {
    pub numbers: FieldNumbers,
    /// The number of its kind.
    pub kind: u64,
    /// Where its name stands in the sheet.
    pub name: Range<usize>,
    /// Where the field after it stands.
    pub next: usize,
}

/// Why there is no text, and the length that it has where it is only too long.
pub struct NoText {
    pub refusal: Refusal,
    pub length: usize,
}

/// Whether the bytes are a sheet.
pub fn admit(sheet: &[u8]) -> Result<(), Refusal> {
    let (mut line, mut column) = (0, 0);
    // Sound: the address and the length are the slice's, and `line` and `column` are local variables.
    let number = unsafe { declarations::kitlubas_admit(sheet.as_ptr(), sheet.len(), &mut line, &mut column) };
    Refusal::told(sheet, number, line, column)
}

/// How many numbers the index of a sheet of so many bytes needs.
pub fn index_size(sheet_len: usize) -> usize {
    // Sound: only a number is passed.
    unsafe { declarations::kitlubas_index_size(sheet_len) }
}

/// Whether the bytes are a sheet; if so, and if the index is long enough, it becomes that of the sheet's nodes.
pub fn index(sheet: &[u8], index: &mut [u64]) -> Result<(), Refusal> {
    let (sheet_at, sheet_len) = (sheet.as_ptr(), sheet.len());
    let (index_at, index_len) = (index.as_mut_ptr(), index.len());
    let (mut line, mut column) = (0, 0);
    // Sound: addresses and lengths are those of the slices, `index` is borrowed exclusively, and `line` and `column` are
    // local variables.
    let number =
        unsafe { declarations::kitlubas_index(sheet_at, sheet_len, index_at, index_len, &mut line, &mut column) };
    Refusal::told(sheet, number, line, column)
}

/// The fill count after the text of a request at a level, over any bytes.
pub fn answer(
    sheet: &[u8],
    node: NodeId,
    place: Place,
    asked: Asked,
    buf: &mut [u8],
    fill: usize,
) -> Result<usize, Refusal> {
    let (buf_at, buf_len) = (buf.as_mut_ptr(), buf.len());
    let (mut after, mut line, mut column) = (fill, 0, 0);
    // Sound: addresses and lengths are those of the slices, `buf` is borrowed exclusively, and `after`, `line` and `column`
    // are local variables.
    let number = unsafe {
        declarations::kitlubas_answer(
            sheet.as_ptr(),
            sheet.len(),
            node.0,
            place.0,
            asked.request.number(),
            asked.request.leaf(),
            asked.level.get().into(),
            &mut after,
            &mut line,
            &mut column,
            buf_at,
            buf_len,
        )
    };
    Refusal::told(sheet, number, line, column).map(|()| after)
}

/// The fill count after the text of a request at a level, over the index of the sheet's nodes.
pub fn answer_in(
    (sheet, index): (&[u8], &[u64]),
    node: NodeId,
    place: Place,
    asked: Asked,
    buf: &mut [u8],
    fill: usize,
) -> Result<usize, Refusal> {
    let (buf_at, buf_len) = (buf.as_mut_ptr(), buf.len());
    let (mut after, mut line, mut column) = (fill, 0, 0);
    // Sound: addresses and lengths are those of the slices, `buf` is borrowed exclusively, and `after`, `line` and `column`
    // are local variables.
    let number = unsafe {
        declarations::kitlubas_answer_in(
            sheet.as_ptr(),
            sheet.len(),
            index.as_ptr(),
            index.len(),
            node.0,
            place.0,
            asked.request.number(),
            asked.request.leaf(),
            asked.level.get().into(),
            &mut after,
            &mut line,
            &mut column,
            buf_at,
            buf_len,
        )
    };
    Refusal::told(sheet, number, line, column).map(|()| after)
}

/// The length of the text of a request at a level, for a field of the node with a number; the text then begins `buf`. Where
/// there is no text, the bytes of `buf` may have changed.
// As a call it takes 1.6 % more of the instructions that all texts of an ordinary sheet of 64 KB take (3,108,497 for 3,060,388).
#[inline]
pub fn text(
    (sheet, index): (&[u8], &[u64]),
    node: usize,
    field: &FieldNumbers,
    asked: Asked,
    buf: &mut [u8],
) -> Result<usize, NoText> {
    let (buf_at, buf_len) = (buf.as_mut_ptr(), buf.len());
    let mut length = 0;
    // Sound: addresses and lengths are those of the slices, `buf` is borrowed exclusively, and `length` is a local
    // variable.
    let number = unsafe {
        declarations::kitlubas_text(
            sheet.as_ptr(),
            sheet.len(),
            index.as_ptr(),
            index.len(),
            node,
            field.as_ptr(),
            field.len(),
            asked.request.number(),
            asked.request.leaf(),
            asked.level.get().into(),
            &mut length,
            buf_at,
            buf_len,
        )
    };
    Refusal::told(sheet, number, 0, 0).map(|()| length).map_err(|refusal| NoText { refusal, length })
}

/// The number of the verdict on a field of the node with a number, if it is a slot with bits.
pub fn verdict((sheet, index): (&[u8], &[u64]), node: usize, field: &FieldNumbers) -> Option<u64> {
    let mut verdict = 0;
    // Sound: addresses and lengths are those of the slices, and `verdict` is a local variable.
    let refusal = unsafe {
        declarations::kitlubas_verdict(
            sheet.as_ptr(),
            sheet.len(),
            index.as_ptr(),
            index.len(),
            node,
            field.as_ptr(),
            field.len(),
            &mut verdict,
        )
    };
    (refusal == 0).then_some(verdict)
}

/// The node with a number, from 0.
pub fn node((sheet, index): (&[u8], &[u64]), number: usize) -> Option<NodeRow> {
    let (mut id, mut module, mut module_len, mut fields) = (0, 0, 0, 0);
    // Sound: addresses and lengths are those of the slices, and the others are four local variables.
    let refusal = unsafe {
        declarations::kitlubas_node(
            sheet.as_ptr(),
            sheet.len(),
            index.as_ptr(),
            index.len(),
            number,
            &mut id,
            &mut module,
            &mut module_len,
            &mut fields,
        )
    };
    (refusal == 0).then(|| NodeRow { id: NodeId(id), module: module..module + module_len, fields })
}

/// The field that stands at a position.
pub fn field(sheet: &[u8], at: usize) -> Option<FieldRow> {
    let mut numbers = [0; FIELD_SIZE];
    let (mut kind, mut name, mut name_len, mut next) = (0, 0, 0, 0);
    // Sound: the first address and length are the slice's, and the others are five local variables.
    let refusal = unsafe {
        declarations::kitlubas_field(
            sheet.as_ptr(),
            sheet.len(),
            at,
            numbers.as_mut_ptr(),
            numbers.len(),
            &mut kind,
            &mut name,
            &mut name_len,
            &mut next,
        )
    };
    (refusal == 0).then(|| FieldRow { numbers, kind, name: name..name + name_len, next })
}

/// The sheet that a text written by hand says.
pub fn padded(short: &[u8]) -> Vec<u8> {
    let rows = short.split(|&byte| byte == b'\n').count();
    let mut sheet = vec![0; short.len() + rows * ROW_GROWTH];
    let (sheet_at, sheet_len) = (sheet.as_mut_ptr(), sheet.len());
    let mut fill = 0;
    // Sound: addresses and lengths are those of the slice and of the vector, which is a local variable, as is `fill`.
    unsafe { declarations::kitlubas_pad(short.as_ptr(), short.len(), &mut fill, sheet_at, sheet_len) };
    sheet.truncate(fill);
    sheet
}

/// A name of a sheet in snake case.
pub fn snake(name: &str) -> String {
    let mut buf = [0; SNAKE_SIZE];
    // Sound: addresses and lengths are those of the name and of a local variable.
    let fill = unsafe { declarations::kitlubas_snake(0, buf.as_mut_ptr(), SNAKE_SIZE, name.as_ptr(), name.len()) };
    String::from_utf8(buf[..fill].to_vec()).expect("a snake name is UTF-8")
}
