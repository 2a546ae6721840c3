//! The functions of Kitlubas' static library, by the declarations that the crate in rust/ has too, and those of the
//! bench's. Every `unsafe` of this package is here. A slice passes as its pointer and its length; `at` is a fill count,
//! and the answer is the new one.

// The crate in rust/ calls the others.
#[path = "../../rust/src/boundary/declarations.rs"]
#[allow(dead_code)]
mod declarations;

// The archive is linked for the declarations.
#[link(name = "exports", kind = "static")]
extern "C" {}

// Both searches for byte 10, which crate bench_ends has for the measurements alone.
#[link(name = "bench_ends", kind = "static")]
extern "C" {
    fn bench_newline_by_words(s: *const u8, s_len: usize, from: usize) -> usize;
    fn bench_newline_by_bytes(s: *const u8, s_len: usize, from: usize) -> usize;
}

pub mod ends {
    use super::{bench_newline_by_bytes, bench_newline_by_words};

    /// The search as it is.
    pub fn by_words(s: &[u8], from: usize) -> Option<usize> {
        found(unsafe { bench_newline_by_words(s.as_ptr(), s.len(), from) })
    }

    /// The search as it was.
    pub fn by_bytes(s: &[u8], from: usize) -> Option<usize> {
        found(unsafe { bench_newline_by_bytes(s.as_ptr(), s.len(), from) })
    }

    /// The largest number stands for none.
    fn found(answer: usize) -> Option<usize> {
        (answer != usize::MAX).then_some(answer)
    }
}

pub mod leaves {
    use super::declarations::*;

    pub fn number(at: usize, buf: &mut [u8], n: u64) -> usize {
        unsafe { kitlubas_number(at, buf.as_mut_ptr(), buf.len(), n) }
    }

    pub fn signed(at: usize, buf: &mut [u8], width: u32, n: u64) -> usize {
        unsafe { kitlubas_signed(at, buf.as_mut_ptr(), buf.len(), width, n) }
    }

    pub fn line(at: usize, buf: &mut [u8], indent: usize, line: &[u8]) -> usize {
        unsafe { kitlubas_line(at, buf.as_mut_ptr(), buf.len(), indent, line.as_ptr(), line.len()) }
    }

    pub fn blank_line(at: usize, buf: &mut [u8]) -> usize {
        unsafe { kitlubas_blank_line(at, buf.as_mut_ptr(), buf.len()) }
    }

    pub fn no_lines(at: usize, buf: &mut [u8]) -> usize {
        unsafe { kitlubas_no_lines(at, buf.as_mut_ptr(), buf.len()) }
    }

    pub fn snake(at: usize, buf: &mut [u8], name: &[u8]) -> usize {
        unsafe { kitlubas_snake(at, buf.as_mut_ptr(), buf.len(), name.as_ptr(), name.len()) }
    }

    pub fn default_name(at: usize, buf: &mut [u8], name: &[u8]) -> usize {
        unsafe { kitlubas_default_name(at, buf.as_mut_ptr(), buf.len(), name.as_ptr(), name.len()) }
    }

    pub fn module_name(at: usize, buf: &mut [u8], name: &[u8]) -> usize {
        unsafe { kitlubas_module_name(at, buf.as_mut_ptr(), buf.len(), name.as_ptr(), name.len()) }
    }
}

pub mod admit {
    use super::declarations::kitlubas_admit;
    use crate::sheet::read::Refusal;

    pub fn admit(sheet: &[u8]) -> Result<(), Refusal> {
        let (mut line, mut column) = (usize::MAX, usize::MAX);
        match unsafe { kitlubas_admit(sheet.as_ptr(), sheet.len(), &mut line, &mut column) } {
            0 => Ok(()),
            number => Err(Refusal { number, line: line as u64, column: column as u64 }),
        }
    }
}

/// The fields of an admitted sheet, one after the other, and their verdicts.
pub mod fields {
    use super::declarations::{kitlubas_field, kitlubas_index, kitlubas_index_size, kitlubas_node, kitlubas_verdict};
    use crate::sheet::read::Refusal;
    use crate::verdict::Verdict;

    /// How many numbers the library has for a field.
    pub const FIELD_SIZE: usize = 14;

    /// The number of a verdict at the boundary.
    pub fn number(verdict: Verdict) -> u64 {
        match verdict {
            Verdict::Agree => 0,
            Verdict::SignFlipped => 1,
            Verdict::CombinedWithDefault => 2,
            Verdict::NotBothGenerated => 3,
        }
    }

    /// A sheet with the index of its nodes.
    pub struct Indexed<'s> {
        sheet: &'s [u8],
        index: Vec<u64>,
    }

    impl<'s> Indexed<'s> {
        pub fn of(sheet: &'s [u8]) -> Result<Indexed<'s>, Refusal> {
            let mut index = vec![0; unsafe { kitlubas_index_size(sheet.len()) }];
            let (index_at, index_len) = (index.as_mut_ptr(), index.len());
            let (mut line, mut column) = (usize::MAX, usize::MAX);
            let number =
                unsafe { kitlubas_index(sheet.as_ptr(), sheet.len(), index_at, index_len, &mut line, &mut column) };
            match number {
                0 => Ok(Indexed { sheet, index }),
                number => Err(Refusal { number, line: line as u64, column: column as u64 }),
            }
        }

        /// The numbers of each field of the node with a number, from 0.
        pub fn fields(&self, node: usize) -> Vec<[u64; FIELD_SIZE]> {
            let mut fields = Vec::new();
            let mut at = self.first_field(node);
            while let Some((numbers, next)) = at.and_then(|at| self.field(at)) {
                fields.push(numbers);
                at = Some(next);
            }
            fields
        }

        /// Where the first field of a node stands.
        fn first_field(&self, node: usize) -> Option<usize> {
            let (mut id, mut module, mut module_len, mut first) = (0, 0, 0, 0);
            let refusal = unsafe {
                kitlubas_node(
                    self.sheet.as_ptr(),
                    self.sheet.len(),
                    self.index.as_ptr(),
                    self.index.len(),
                    node,
                    &mut id,
                    &mut module,
                    &mut module_len,
                    &mut first,
                )
            };
            (refusal == 0).then_some(first)
        }

        /// The numbers of the field that stands at a position, and where the one after it stands.
        fn field(&self, at: usize) -> Option<([u64; FIELD_SIZE], usize)> {
            let mut numbers = [0; FIELD_SIZE];
            let (mut kind, mut name, mut name_len, mut next) = (0, 0, 0, 0);
            let refusal = unsafe {
                kitlubas_field(
                    self.sheet.as_ptr(),
                    self.sheet.len(),
                    at,
                    numbers.as_mut_ptr(),
                    numbers.len(),
                    &mut kind,
                    &mut name,
                    &mut name_len,
                    &mut next,
                )
            };
            (refusal == 0).then_some((numbers, next))
        }

        /// The answer for the numbers of a field of a node, and the number that the verdict becomes.
        pub fn verdict(&self, node: usize, field: &[u64]) -> (u64, u64) {
            let mut verdict = u64::MAX;
            let answer = unsafe {
                kitlubas_verdict(
                    self.sheet.as_ptr(),
                    self.sheet.len(),
                    self.index.as_ptr(),
                    self.index.len(),
                    node,
                    field.as_ptr(),
                    field.len(),
                    &mut verdict,
                )
            };
            (answer, verdict)
        }
    }
}

pub mod answer {
    use super::declarations::kitlubas_answer;
    use crate::answer::{Request, State};
    use crate::sheet::read::Refusal;

    /// The number of a request at the boundary; the leaf goes beside it.
    pub fn number(request: Request) -> u64 {
        match request {
            Request::Type { .. } => 0,
            Request::Getter { reader: true, function: false } => 1,
            Request::Getter { reader: false, function: false } => 2,
            Request::Getter { reader: true, function: true } => 3,
            Request::Getter { reader: false, function: true } => 4,
            Request::Setter => 5,
            Request::Haser { reader: true } => 6,
            Request::Haser { reader: false } => 7,
            Request::Zero => 8,
            Request::PairedSetter => 9,
        }
    }

    /// The leaf of a request; 0 for one that has none.
    pub fn leaf(request: Request) -> u64 {
        match request {
            Request::Type { leaf } => leaf,
            _ => 0,
        }
    }

    /// The answer; the state's fill count is that before and after.
    pub fn answer(
        sheet: &[u8],
        node: u64,
        place: u64,
        request: Request,
        state: &mut State,
        buf: &mut [u8],
    ) -> Result<(), Refusal> {
        let (mut line, mut column) = (usize::MAX, usize::MAX);
        let number = unsafe {
            kitlubas_answer(
                sheet.as_ptr(),
                sheet.len(),
                node,
                place,
                number(request),
                leaf(request),
                state.level,
                &mut state.fill,
                &mut line,
                &mut column,
                buf.as_mut_ptr(),
                buf.len(),
            )
        };
        match number {
            0 => Ok(()),
            number => Err(Refusal { number, line: line as u64, column: column as u64 }),
        }
    }
}
