//! capnpc's own functions, cut unchanged from its sources at build time, run over stand-ins for the `capnp` runtime,
//! and what is needed to hold Kitlubas against them: see README.md.

// The functions that are cut speak of the runtime as `capnp` and of themselves as `crate`; both are this crate.
extern crate self as capnp;

pub mod answer;
pub mod boundary;
pub mod codegen;
pub mod codegen_types;
pub mod compare;
pub mod context;
pub mod generate;
pub mod measure;
pub mod names;
pub mod numbers;
pub mod paired;
pub mod pointer_constants;
pub mod program;
pub mod random;
pub mod report;
pub mod sample;
pub mod sheet;
pub mod standins;
pub mod verdict;

pub use standins::{any_pointer, message, raw, schema_capnp, traits, Error, MessageSize, Result};
