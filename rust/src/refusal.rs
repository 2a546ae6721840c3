//! Why a sheet or a request is refused: a number, a spot in the sheet and a sentence.
#![forbid(unsafe_code)]

use crate::expected;
use std::fmt;

/// Why a sheet or a request is refused. It displays as a sentence for people: with the spot and what is expected there, where
/// a line of the sheet is at fault.
///
/// ```
/// use kitlubas::{admit, padded};
///
/// let mut bytes = padded("R ::capnp\nN 7 0 0 1 0 0 0 bed\nF 3 65535 1 0 isFree\nT 1 0 0 0\nV 1 1\n");
/// assert_eq!(admit(&bytes), Ok(()));
///
/// // The offset of the third line is moved to the left by a column.
/// let offset = bytes.windows(2).position(|pair| pair == b" 3").expect("there is an offset");
/// bytes[offset..offset + 2].copy_from_slice(b"3 ");
/// let refusal = admit(&bytes).unwrap_err();
/// assert_eq!((refusal.number, refusal.line, refusal.column), (16, Some(3), Some(2)));
/// assert_eq!(
///     refusal.to_string(),
///     "line 3, column 2: the offset, a number of 32 bits, right-justified in 21 columns (refusal 16)"
/// );
/// ```
#[derive(Clone, Copy, Debug, PartialEq, Eq, Hash)]
#[non_exhaustive]
pub struct Refusal {
    /// The refusal's number: 1 to 17 are from the input, 21 and 22 from the state of the buffer, and 36 is a level of
    /// indentation above 8, which only a caller in C can ask for.
    pub number: u64,
    /// The sheet's line at fault, from 1, where the fault was met reading the sheet (2, 3, 4 of a type, 16 and 17).
    pub line: Option<usize>,
    /// The column of that line, in bytes from 1: where a number's 21 columns or a text begin, the id's for 3, and 1 for 2 and
    /// 4. It may lie past the line's end.
    pub column: Option<usize>,
    /// The first byte of that line, which says what stands in its columns; 0 where there is none.
    letter: u8,
}

impl Refusal {
    /// The number of the refusal that says that the text is longer than the free part of the buffer.
    pub const NO_ROOM: u64 = 22;

    /// The refusal of a request for a node or a field that the sheet does not have.
    pub(crate) const NOT_THERE: Refusal = Refusal { number: 15, line: None, column: None, letter: 0 };

    /// What the library tells of a sheet by a number, a line and a column: no refusal where the number is 0, and no spot where
    /// the line is 0.
    pub(crate) fn told(sheet: &[u8], number: u64, line: usize, column: usize) -> Result<(), Refusal> {
        match (number, line) {
            (0, _) => Ok(()),
            (_, 0) => Err(Refusal { number, ..Refusal::NOT_THERE }),
            _ => {
                let row = sheet.split(|&byte| byte == b'\n').nth(line - 1).unwrap_or_default();
                let letter = row.first().copied().unwrap_or_default();
                Err(Refusal { number, line: Some(line), column: Some(column), letter })
            }
        }
    }

    /// The sentence that says what the refusal's number means.
    pub fn sentence(self) -> &'static str {
        match self.number {
            1 => "the sheet has more than 65,536 bytes",
            2 => "the line has a letter that may not stand there, or no newline at its end, or the sheet ends too soon",
            3 => "the line gives an id that an earlier line of the same letter has",
            4 => "a type, a chain of parents or the groups inside each other have a 17th level",
            5 => "a node that the field refers to is not in the sheet",
            6 => "a list of AnyPointer has no text",
            7 => "a type parameter has no client, server, dispatch or get_type",
            8 => "a brand has not as many bindings as the node that it is for has parameters",
            9 => "option stands at a slot that is not a pointer, or at an interface",
            10 => "the default is not of the slot's type, so that there is no getter",
            11 => "the default of a Bool or a number is neither, so that there is no setter",
            12 => "the explicit default of an enum is not an enum's, so that there is no setter",
            13 => "a type parameter's index is past the parameters of its node",
            14 => "the node of a group is not a struct",
            15 => "the sheet has no such node or field, or such a request is not for such a field",
            16 => "a number of the line is not written as a sheet's number, or is none that may stand there",
            17 => "a text of the line is none that may stand there, or the line has more bytes than belong to it",
            21 => "the fill count is above the buffer's length",
            Refusal::NO_ROOM => "the text is longer than the free part of the buffer",
            36 => "the level of indentation is above 8",
            _ => "no refusal has this number",
        }
    }

    /// What is expected at a column of the line at fault.
    fn expected(self, column: usize) -> &'static str {
        match self.number {
            2 => "a line with a letter that may stand there, and a newline at its end",
            3 => "an id that no earlier line of the same letter has",
            4 => "a type of at most 16 levels",
            16 => expected::number(self.letter, column),
            _ => expected::text(self.letter, column),
        }
    }
}

impl fmt::Display for Refusal {
    fn fmt(&self, f: &mut fmt::Formatter<'_>) -> fmt::Result {
        match (self.line, self.column) {
            (Some(line), Some(column)) => {
                let columns = if self.number == 16 { ", right-justified in 21 columns" } else { "" };
                write!(f, "line {line}, column {column}: {}{columns}", self.expected(column))?;
            }
            _ => write!(f, "{}", self.sentence())?,
        }
        write!(f, " (refusal {})", self.number)
    }
}

impl std::error::Error for Refusal {}
