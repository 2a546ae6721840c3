//! `GeneratorContext` of a sheet, as capnpc would have filled it: modules and parents come in the N lines.

use crate::codegen::GeneratorContext;
use crate::schema_capnp::{code_generator_request, node};
use crate::sheet::{Node, Sheet};
use std::marker::PhantomData;

pub fn context(sheet: &Sheet) -> GeneratorContext<'_> {
    let nodes = || sheet.nodes.iter();
    GeneratorContext {
        request: code_generator_request::Reader(PhantomData),
        node_map: nodes().map(|node| (node.id, node::Reader(node))).collect(),
        scope_map: nodes().map(|node| (node.id, vec![node.module.clone()])).collect(),
        node_parents: nodes().map(|node: &Node| (node.id, node.parent)).collect(),
        capnp_root: sheet.root.clone(),
    }
}
