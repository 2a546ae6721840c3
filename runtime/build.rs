// Links the static library that `tools/build record_exports` writes.
fn main() {
    let lib = std::path::Path::new(env!("CARGO_MANIFEST_DIR")).join("../target/staticlib");
    println!("cargo:rustc-link-search=native={}", lib.display());
    println!("cargo:rustc-link-lib=static=record_exports");
    println!("cargo:rerun-if-changed={}", lib.join("librecord_exports.a").display());
}
