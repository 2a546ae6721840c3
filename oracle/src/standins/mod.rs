//! Stand-ins for the `capnp` runtime: types with the names and methods that capnpc's functions use, over the tree of a
//! sheet. They decide no text. Where the Rust would panic or run without end, they stop it with document 01's number.

pub mod any_pointer;
pub mod collections;
mod error;
mod levels;
mod list;
pub mod message;
pub mod raw;
pub mod refusal;
pub mod schema_capnp;
pub mod text;
pub mod traits;

pub use error::{Error, Result};

/// The size of a message; only its words are asked for.
pub struct MessageSize {
    pub word_count: u64,
}
