//! capnpc's pointer_constants.rs: the functions cut from it.

use crate::codegen::FormattedText::{Branch, Line};
use crate::codegen::{fmt, indent, line, FormattedText, GeneratorContext};
use capnp::{any_pointer, message};

include!(concat!(env!("OUT_DIR"), "/pointer_constants.rs"));
