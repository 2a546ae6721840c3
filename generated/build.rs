//! Asks Kitlubas for the accessors of every field of the sheets, and writes them into the Rust file that the program
//! includes. The sheets are those of the folder `sheets`, and those that build/made.rs makes.

#[path = "build/made.rs"]
mod made;
#[path = "build/nodes.rs"]
mod nodes;
#[path = "build/rows.rs"]
mod rows;
#[path = "build/source.rs"]
mod source;

use std::path::{Path, PathBuf};
use std::{env, fs};

fn main() {
    let package = PathBuf::from(env::var_os("CARGO_MANIFEST_DIR").expect("cargo gives the package's folder"));
    let out = PathBuf::from(env::var_os("OUT_DIR").expect("cargo gives a folder for made files"));
    for watched in ["build.rs", "build", "sheets"] {
        println!("cargo:rerun-if-changed={watched}");
    }
    let mut sheets = made::sheets();
    sheets.extend(written(&package.join("sheets")));
    sheets.extend(unflagged(&sheets));
    write(&out.join("accessors.rs"), source::file(&sheets));
    write(&out.join("whole.rs"), whole_enum());

    // The record crate's functions, which `tools/build record_exports` writes.
    let archives = package.join("../target/staticlib");
    println!("cargo:rerun-if-changed={}", archives.join("librecord_exports.a").display());
    println!("cargo:rustc-link-search=native={}", archives.display());
    println!("cargo:rustc-link-lib=static=record_exports");
}

/// The sheets of a folder in their short form, by their names.
fn written(folder: &Path) -> Vec<(String, String)> {
    let entries = fs::read_dir(folder).expect("the folder of sheets can be read");
    let mut files: Vec<PathBuf> = entries.map(|entry| entry.expect("the folder can be read").path()).collect();
    files.sort();
    let name = |file: &Path| file.file_stem().expect("a file has a name").to_string_lossy().into_owned();
    let text = |file: &Path| fs::read_to_string(file).unwrap_or_else(|error| panic!("{}: {error}", file.display()));
    files.iter().map(|file| (name(file), text(file))).collect()
}

/// The bed again, as a schema editor left it that gave the default of the status but not its flag.
fn unflagged(sheets: &[(String, String)]) -> Option<(String, String)> {
    let (_, bed) = sheets.iter().find(|(name, _)| name == "bed")?;
    let short = bed.replace("F 18 65535 1 0 status", "F 18 65535 0 0 status").replace("::bed::", "::bed_unflagged::");
    Some(("bed_unflagged".into(), short))
}

/// An enum that has every number of 16 bits.
fn whole_enum() -> String {
    let members: String = (0..=u16::MAX).map(|n| format!("N{n},")).collect();
    format!("#[allow(dead_code)]\n#[derive(Clone, Copy)]\n#[repr(u16)]\npub enum Whole {{{members}}}\n")
}

fn write(file: &Path, text: String) {
    fs::write(file, text).unwrap_or_else(|error| panic!("{}: {error}", file.display()));
}
