//! `Value`: a V line, with the words of its W lines.

pub use self::Which::*;
use crate::sheet::Value;
use crate::standins::{text, Result};

#[derive(Clone, Copy)]
pub struct Reader<'a> {
    value: Value,
    words: &'a [u64],
}

/// Of pointer values only the variant is looked at.
pub enum Which<'a> {
    Void(()),
    Bool(bool),
    Int8(i8),
    Int16(i16),
    Int32(i32),
    Int64(i64),
    Uint8(u8),
    Uint16(u16),
    Uint32(u32),
    Uint64(u64),
    Float32(f32),
    Float64(f64),
    Text(Result<text::Reader<'a>>),
    Data(()),
    List(()),
    Enum(u16),
    Struct(()),
    Interface(()),
    AnyPointer(()),
}

impl<'a> Reader<'a> {
    pub fn new(value: Value, words: &'a [u64]) -> Reader<'a> {
        Reader { value, words }
    }

    pub fn words(&self) -> &'a [u64] {
        self.words
    }

    pub fn which(&self) -> Result<Which<'a>> {
        let bits = self.value.bits;
        Ok(match self.value.kind {
            0 => Void(()),
            1 => Bool(bits != 0),
            2 => Int8(bits as i8),
            3 => Int16(bits as i16),
            4 => Int32(bits as i32),
            5 => Int64(bits as i64),
            6 => Uint8(bits as u8),
            7 => Uint16(bits as u16),
            8 => Uint32(bits as u32),
            9 => Uint64(bits),
            10 => Float32(f32::from_bits(bits as u32)),
            11 => Float64(f64::from_bits(bits)),
            12 => Text(Ok(text::Reader(""))),
            13 => Data(()),
            14 => List(()),
            15 => Enum(bits as u16),
            16 => Struct(()),
            17 => Interface(()),
            18 => AnyPointer(()),
            kind => panic!("kind {kind} is none of Value's"),
        })
    }
}
