//! Cap'n Proto's own tool, with the schema bed.capnp.

use std::io::Write;
use std::process::{Command, Output, Stdio};

const SCHEMA: &str = concat!(env!("CARGO_MANIFEST_DIR"), "/bed.capnp");

/// The members of the schema's enum.
pub const STATUS: [&str; 3] = ["free", "taken", "reserved"];

/// Has the tool come to its end over an input. One that fails may leave a part of it unread, as its status then tells.
pub fn run(command: &[&str], input: Vec<u8>) -> Output {
    let mut tool = Command::new("capnp")
        .args(command)
        .args([SCHEMA, "Bed"])
        .stdin(Stdio::piped())
        .stdout(Stdio::piped())
        .spawn()
        .expect("capnp can be started");
    let mut stdin = tool.stdin.take().expect("the tool has an input");
    let feed = std::thread::spawn(move || stdin.write_all(&input).is_ok());
    let output = tool.wait_with_output().expect("capnp comes to its end");
    let is_read = feed.join().expect("the input is handed over");
    assert!(is_read || !output.status.success(), "capnp succeeded, and left input unread");
    output
}

/// Whether bits are a NaN's: its text does not say which it is.
pub fn is_nan(kind: u64, bits: u64) -> bool {
    match kind {
        10 => f32::from_bits(bits as u32).is_nan(),
        11 => f64::from_bits(bits).is_nan(),
        _ => false,
    }
}
