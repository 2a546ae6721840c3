//! The headers as C and C++ read them, and programs in C over the static library; where a compiler is at hand.

use crate::common::{file, sheet};
use std::fs::{self, File};
use std::path::{Path, PathBuf};
use std::process::{Command, Output};

const HEADERS: [&str; 2] = ["crates/exports/kitlubas.h", "crates/record_exports/kitlubas_record.h"];

/// A compiler that takes no warning, where it is at hand.
fn compiler(name: &str) -> Option<Command> {
    if Command::new(name).arg("--version").output().is_err() {
        println!("not compiled: {name} is not at hand");
        return None;
    }
    let mut command = Command::new(name);
    command.args(["-Wall", "-Wextra", "-Werror"]);
    Some(command)
}

/// What a command prints; it must succeed.
fn output(command: &mut Command) -> Output {
    let output = command.output().expect("the command can be run");
    assert!(output.status.success(), "{}", String::from_utf8_lossy(&output.stderr));
    output
}

#[test]
fn the_headers_are_c_and_cpp() {
    for header in HEADERS.map(file) {
        for (name, language, standard) in [("cc", "c", "-std=c99"), ("c++", "c++", "-std=c++11")] {
            if let Some(mut compiler) = compiler(name) {
                output(compiler.args([standard, "-fsyntax-only", "-x", language]).arg(&header));
            }
        }
    }
}

/// A place for a file that the tests make.
fn made(name: &str) -> PathBuf {
    Path::new(env!("CARGO_TARGET_TMPDIR")).join(name)
}

/// A program in C of the repository, built over the static library, where there is a compiler.
fn built(source: &str) -> Option<PathBuf> {
    let mut compiler = compiler("cc")?;
    let source = file(source);
    let program = made(&source.file_stem()?.to_string_lossy());
    compiler.args(["-std=c99", "-I"]).arg(file("crates/exports")).arg(source);
    output(compiler.args([env!("KITLUBAS_ARCHIVE"), "-o"]).arg(&program));
    Some(program)
}

/// A program that reads a sheet.
fn over(program: &Path, sheet: &Path) -> Command {
    let mut command = Command::new(program);
    command.stdin(File::open(sheet).expect("the sheet can be read"));
    command
}

/// The example in C, over the first example's sheet and over two that are refused.
#[test]
fn a_setter_printed_by_c() {
    let Some(program) = built("examples/c/setter.c") else { return };
    let run = |name: &str| over(&program, &file(name));
    let setter = "#[inline]\npub fn set_is_free(&mut self, value: bool)  {\n    \
        self.builder.set_bool_field_mask(3, value, true);\n}\n";
    assert_eq!(String::from_utf8_lossy(&output(&mut run("examples/is_free.sheet")).stdout), setter);
    for (name, said) in [("torn", "refused 2 line 5 column 1\n"), ("shifted", "refused 16 line 6 column 23\n")] {
        let refused = run(&format!("examples/{name}.sheet")).output().expect("the program can be run");
        assert!(!refused.status.success() && refused.stdout.is_empty());
        assert_eq!(String::from_utf8_lossy(&refused.stderr), format!("the sheet: {said}"));
    }
}

/// Each verdict, and what has none, as C is told it.
#[test]
fn verdicts_printed_by_c() {
    let Some(program) = built("rust/tests/suite/verdicts.c") else { return };
    let slots = "F 3 65535 1 0 isFree\nT 1 0 0 0\nV 1 1\nF 4 65535 0 0 status\nT 15 9 0 0\nV 15 2\n\
        F 1 65535 1 0 heat\nT 10 0 0 0\nV 10 2147483648\nF 5 65535 0 0 odd\nT 1 0 0 0\nV 2 3\n\
        F 0 65535 0 0 ward\nT 12 0 0 0\nV 12 0\n";
    let path = made("verdicts.sheet");
    let bytes = sheet(&format!("R ::capnp\nN 7 0 0 1 0 0 0 bed\n{slots}N 9 0 0 0 0 0 0 Status\n"));
    fs::write(&path, bytes).expect("the sheet can be written");
    let told = "isFree: agree\nstatus: combined with the default\nheat: sign flipped\nodd: not both generated\n\
        ward: refused 15, verdict 0\n";
    assert_eq!(String::from_utf8_lossy(&output(&mut over(&program, &path)).stdout), told);
}
