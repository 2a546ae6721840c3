//! capnpc's codegen.rs: the functions cut from it, and the calls by which the rest of this package reaches those that
//! are private there.
#![allow(dead_code)]
// capnpc's own lines stay as they are.
#![allow(clippy::needless_question_mark)]

use self::FormattedText::{BlankLine, Branch, Indent, Line};
use crate::codegen_types::{Leaf, RustTypeInfo};
use crate::standins::collections;
use capnp::schema_capnp;
use capnp::Error;

include!(concat!(env!("OUT_DIR"), "/codegen.rs"));

/// The id by which a field's annotations say that its getter gives an option.
pub(crate) const OPTION_ID: u64 = OPTION_ANNOTATION_ID;

/// The exact functions, made public under their own names.
pub mod exact {
    use super::{schema_capnp, FormattedText, GeneratorContext};

    pub const RUST_KEYWORDS: &[&str] = super::RUST_KEYWORDS;

    pub fn camel_to_snake_case(name: &str) -> String {
        super::camel_to_snake_case(name)
    }

    pub fn module_name(name: &str) -> String {
        super::module_name(name)
    }

    pub fn stringify(text: &FormattedText) -> String {
        super::stringify(text)
    }

    pub fn to_lines(text: &FormattedText, indent: usize) -> Vec<String> {
        super::to_lines(text, indent)
    }

    pub fn zero_fields_of_group(ctx: &GeneratorContext, node_id: u64) -> capnp::Result<FormattedText> {
        super::zero_fields_of_group(ctx, node_id, &mut false)
    }

    pub fn generate_setter(
        ctx: &GeneratorContext,
        discriminant_offset: u32,
        styled_name: &str,
        field: &schema_capnp::field::Reader,
    ) -> capnp::Result<FormattedText> {
        super::generate_setter(ctx, discriminant_offset, styled_name, field)
    }

    pub fn generate_haser(
        discriminant_offset: u32,
        styled_name: &str,
        field: &schema_capnp::field::Reader,
        is_reader: bool,
    ) -> capnp::Result<FormattedText> {
        super::generate_haser(discriminant_offset, styled_name, field, is_reader)
    }
}
