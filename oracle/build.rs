//! Cuts capnpc's functions out of its sources, unchanged, into the files that src/codegen.rs, src/codegen_types.rs
//! and src/pointer_constants.rs include; and links the static library of Kitlubas and that of the bench.
//!
//! CAPNPC_SRC names the folder that holds capnpc/src; by default it is docs/src of the folder `shared` beside the
//! project. KITLUBAS_LIB names the archive; by default the one that `tools/build exports` writes. The bench's is the one that
//! `tools/build bench_ends` writes.

#[path = "build/cut.rs"]
mod cut;

use std::path::{Path, PathBuf};
use std::{env, fs};

/// What is cut from codegen.rs. `fmt` comes first: a macro is known from its definition on.
const CODEGEN: &[&str] = &[
    "macro_rules! fmt(",
    "pub(crate) use fmt;",
    "pub struct GeneratorContext<'a> {",
    "fn camel_to_snake_case(",
    "pub enum FormattedText {",
    "impl From<Vec<FormattedText>> for FormattedText {",
    "pub fn indent(",
    "pub fn line(",
    "fn to_lines(",
    "fn stringify(",
    "const RUST_KEYWORDS:",
    "fn module_name(",
    "const NAME_ANNOTATION_ID:",
    "const OPTION_ANNOTATION_ID:",
    "fn name_annotation_value(",
    "fn get_field_name(",
    "fn is_option_field(",
    "fn prim_default(",
    "fn get_params(",
    "pub fn getter_text(",
    "fn zero_fields_of_group(",
    "fn generate_setter(",
    "fn generate_haser(",
];

/// The method of `GeneratorContext` that the functions above call.
const CONTEXT_METHOD: &str = "    pub fn get_qualified_module(";

const CODEGEN_TYPES: &[&str] = &[
    "pub enum Leaf {",
    "impl ::std::fmt::Display for Leaf {",
    "impl Leaf {",
    "pub trait RustTypeInfo {",
    "impl RustTypeInfo for type_::Reader<'_> {",
    "pub fn do_branding(",
];

const POINTER_CONSTANTS: &[&str] = &[
    "pub(crate) struct WordArrayDeclarationOptions {",
    "fn word_array_declaration_aux<",
    "pub(crate) fn word_array_declaration(",
];

fn main() {
    let package = PathBuf::from(env::var_os("CARGO_MANIFEST_DIR").expect("cargo gives the package's folder"));
    let sources = setting("CAPNPC_SRC", package.join("../../shared/docs/src")).join("capnpc/src");
    println!("cargo:rerun-if-changed=build");

    let codegen = read(&sources, "codegen.rs");
    let method = cut_item(&codegen, CONTEXT_METHOD, "codegen.rs");
    let context = format!("impl GeneratorContext<'_> {{\n{method}\n}}\n");
    write("codegen.rs", cut_items(&codegen, CODEGEN, "codegen.rs") + &context);
    for (file, items) in [("codegen_types.rs", CODEGEN_TYPES), ("pointer_constants.rs", POINTER_CONSTANTS)] {
        write(file, cut_items(&read(&sources, file), items, file));
    }

    link(&setting("KITLUBAS_LIB", package.join("../target/staticlib/libexports.a")), "exports");
    link(&package.join("../target/staticlib/libbench_ends.a"), "bench_ends");
}

/// Tells cargo where an archive lies that src/boundary.rs links, and of which crate it is.
fn link(archive: &Path, name: &str) {
    assert!(archive.exists(), "{}: not there; `tools/build {name}` writes it", archive.display());
    println!("cargo:rerun-if-changed={}", archive.display());
    let folder = archive.parent().expect("the archive lies in a folder");
    println!("cargo:rustc-link-search=native={}", folder.display());
}

fn setting(name: &str, default: PathBuf) -> PathBuf {
    println!("cargo:rerun-if-env-changed={name}");
    env::var_os(name).map_or(default, PathBuf::from)
}

fn read(folder: &Path, file: &str) -> String {
    let path = folder.join(file);
    println!("cargo:rerun-if-changed={}", path.display());
    fs::read_to_string(&path).unwrap_or_else(|error| panic!("{}: {error}; CAPNPC_SRC names its folder", path.display()))
}

fn cut_items(source: &str, headers: &[&str], file: &str) -> String {
    headers.iter().map(|header| format!("{}\n\n", cut_item(source, header, file))).collect()
}

fn cut_item<'s>(source: &'s str, header: &str, file: &str) -> &'s str {
    cut::item(source, header).unwrap_or_else(|fault| panic!("{file}: {fault}"))
}

fn write(file: &str, text: String) {
    let folder = PathBuf::from(env::var_os("OUT_DIR").expect("cargo gives a folder for made files"));
    fs::write(folder.join(file), text).unwrap_or_else(|error| panic!("{file}: {error}"));
}
