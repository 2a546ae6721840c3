//! Links the static library of Kitlubas. KITLUBAS_LIB names the archive; by default it is the one that
//! `tools/build exports` writes into the repository that this package lies in.

use std::env;
use std::path::PathBuf;

fn main() {
    println!("cargo:rerun-if-env-changed=KITLUBAS_LIB");
    let package = PathBuf::from(env::var_os("CARGO_MANIFEST_DIR").expect("cargo gives the package's folder"));
    let default = package.join("../target/staticlib/libexports.a");
    let archive = env::var_os("KITLUBAS_LIB").map_or(default, PathBuf::from);
    println!("cargo:rerun-if-changed={}", archive.display());
    assert!(
        archive.is_file(),
        "no archive {}: `tools/build exports` writes it, KITLUBAS_LIB names it",
        archive.display()
    );

    // The linker is told a folder, and a name without `lib` and `.a`.
    let folder = archive.parent().expect("an archive lies in a folder");
    let file = archive.file_name().and_then(|name| name.to_str()).unwrap_or("");
    let name = file.strip_prefix("lib").and_then(|rest| rest.strip_suffix(".a"));
    let name = name.unwrap_or_else(|| panic!("an archive is called libNAME.a, not {file}"));
    println!("cargo:rustc-link-search=native={}", folder.display());
    println!("cargo:rustc-link-lib=static={name}");
    // The tests link a program in C with it.
    println!("cargo:rustc-env=KITLUBAS_ARCHIVE={}", archive.display());
}
