//! Sheets that are written by hand, without their padding.
#![forbid(unsafe_code)]

use crate::boundary;

/// The sheet that a text written by hand says: the numbers of each line, with any spaces between them, are put right-justified
/// into their 21 columns. A sheet's short form, where a single space stands in front of each number, gives that sheet, and a
/// sheet stays as it is; both are proved.
///
/// It checks nothing: [`admit`](crate::admit) says whether it is a sheet.
///
/// ```
/// use kitlubas::padded;
///
/// let value = format!("V{:>21}{:>21}\n", 1, 1).into_bytes();
/// assert_eq!(padded("V 1 1\n"), value);
/// assert_eq!(padded("V   1  1\n"), value);
/// assert_eq!(padded(&value), value);
/// assert_eq!(padded("R ::capnp\n"), b"R ::capnp\n");
/// ```
pub fn padded(short: impl AsRef<[u8]>) -> Vec<u8> {
    boundary::padded(short.as_ref())
}
