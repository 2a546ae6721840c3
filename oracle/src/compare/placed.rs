//! A writer of the static library held against a text: at each way that a buffer and a fill count can stand to it.

use crate::report::{difference, Report};

/// Writes at a fill count into a buffer and gives the new fill count.
pub trait Writer: Fn(usize, &mut [u8]) -> usize {}
impl<T: Fn(usize, &mut [u8]) -> usize> Writer for T {}

/// The buffers' lengths and fill counts at which a text of `length` bytes is tried.
fn places(length: usize) -> [(usize, usize); 9] {
    [
        (length, 0),
        (length + 7, 0),
        (length + 9, 4),
        (length + 4, 5),
        (length.saturating_sub(1), 0),
        (0, 0),
        (6, 6),
        (6, 9),
        (6, usize::MAX - length / 2),
    ]
}

/// The bytes that fit are written, all are counted, the count stops at the largest but one, and no other byte changes.
pub fn writes(report: &mut Report, text: &[u8], writer: impl Writer, what: impl Fn() -> String) {
    for (length, fill) in places(text.len()) {
        let before = pattern(length);
        let mut expected = before.clone();
        for (offset, byte) in text.iter().enumerate() {
            if let Some(place) = fill.checked_add(offset).and_then(|at| expected.get_mut(at)) {
                *place = *byte;
            }
        }
        let expected_fill = fill.saturating_add(text.len()).min(usize::MAX - 1);
        same(report, before, fill, (expected_fill, expected), &writer, &what);
    }
}

/// Nothing is written, and the answer is the largest number, which is no count.
pub fn refuses(report: &mut Report, writer: impl Writer, what: impl Fn() -> String) {
    for (length, fill) in places(64) {
        let before = pattern(length);
        same(report, before.clone(), fill, (usize::MAX, before), &writer, &what);
    }
}

fn same(
    report: &mut Report,
    before: Vec<u8>,
    fill: usize,
    expected: (usize, Vec<u8>),
    writer: &impl Writer,
    what: &impl Fn() -> String,
) {
    let mut buffer = before;
    let new_fill = writer(fill, &mut buffer);
    report.case((new_fill, &buffer) == (expected.0, &expected.1), || {
        format!(
            "{} into {} bytes at {fill}: {new_fill} and not {}, {}",
            what(),
            buffer.len(),
            expected.0,
            difference(&buffer, &expected.1)
        )
    });
}

/// Bytes in which a changed one shows.
fn pattern(length: usize) -> Vec<u8> {
    (0..length).map(|at| (at * 37 + 129) as u8).collect()
}
