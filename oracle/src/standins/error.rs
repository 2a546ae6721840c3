//! `capnp::Error` as capnpc makes it: a message. The messages tell the refusals apart.

pub type Result<T> = std::result::Result<T, Error>;

#[derive(Clone, Debug)]
pub struct Error {
    message: String,
}

impl Error {
    pub fn failed(message: String) -> Error {
        Error { message }
    }

    pub fn unimplemented(message: String) -> Error {
        Error { message }
    }

    /// Document 01's number for an error of capnpc, if it has one.
    pub fn refusal(&self) -> Option<u64> {
        let (_, number) = NUMBERS.iter().find(|(start, _)| self.message.starts_with(start))?;
        Some(*number)
    }
}

/// How each of capnpc's messages begins.
const NUMBERS: [(&str, u64); 7] = [
    ("List(AnyPointer) is unsupported", 6),
    ("unimplemented any_pointer leaf", 7),
    ("$Rust.option annotation only supported on pointer fields", 9),
    ("default value was of wrong type", 10),
    ("Non-primitive value found where primitive was expected", 11),
    ("enum default not an Enum", 12),
    ("zero_fields_of_group() expected a struct", 14),
];
