//! capnpc's codegen_types.rs: the functions cut from it.

use crate::codegen::{fmt, GeneratorContext};
use capnp::schema_capnp::{brand, type_};
use capnp::Error;
use std::collections::hash_map::HashMap;

include!(concat!(env!("OUT_DIR"), "/codegen_types.rs"));
