//! Annotations of a field: none, or `$Rust.option`. A `$Rust.name` was applied before the sheet was written.

use super::value;
use crate::sheet::Value;
use crate::standins::list::{List, Part};
use crate::standins::Result;

pub struct Annotation {
    id: u64,
}

/// `option` of rust.capnp.
const OPTION: [Annotation; 1] = [Annotation { id: crate::codegen::OPTION_ID }];

/// Its value, which nobody reads: Void.
const VOID: Value = Value { kind: 0, bits: 0 };

pub fn of(option: bool) -> List<'static, Annotation> {
    List(if option { &OPTION } else { &[] })
}

#[derive(Clone, Copy)]
pub struct Reader<'a>(&'a Annotation);

impl Part for Annotation {
    type Reader<'a> = Reader<'a>;

    fn reader(&self) -> Reader<'_> {
        Reader(self)
    }
}

impl<'a> Reader<'a> {
    pub fn get_id(&self) -> u64 {
        self.0.id
    }

    pub fn get_value(&self) -> Result<value::Reader<'a>> {
        Ok(value::Reader::new(VOID, &[]))
    }
}
