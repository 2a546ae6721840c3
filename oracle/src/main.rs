//! The commands of the comparison with capnpc: `oracle` with no words says which there are.

use oracle::measure::{self, Round, Side};
use oracle::sheet::read::Refusal;
use oracle::{compare, generate, program, sample};
use std::fs;
use std::io::{self, Read, Write};
use std::path::Path;
use std::process::ExitCode;

const USAGE: &str = "\
oracle compare [TIMES]    hold the static library of Kitlubas against capnpc's functions; TIMES multiplies the random cases
oracle sample WHAT FOLDER write FOLDER/stdin and FOLDER/stdout, which a program of the gate replays; WHAT is `leaves` (names,
                          numbers and lines), `sheets` (what is admitted), `accessors` (what whole sheets give) or
                          `requests` (what single requests are answered)
oracle bounds             print the name of each sheet at a bound and its answer
oracle measure TABLE SIDE print the names of the cases of a table of bench/run and do each twice, by `rust`, `rust-from-bytes`
                          or `kitlubas`; TABLE is `names`, `admission`, `requests`, `ends-by-bytes` or `ends-by-words`;
                          callgrind counts the second round
oracle time TABLE SIDE    print the nanoseconds of the cases of a table
oracle sheets FOLDER      write the sheets that requests and the program are measured on, and print the worst: name, how much
                          of it there is, file
oracle ask SIDE SHEET     print the names of the requests that a file's last field takes, and do each once;
                          callgrind counts them
oracle accessors          print what the program `accessors` must print for the sheet on standard input
oracle verdicts           print what the program `verdicts` must print for it";

fn main() -> ExitCode {
    let words: Vec<String> = std::env::args().skip(1).collect();
    let words: Vec<&str> = words.iter().map(String::as_str).collect();
    match words[..] {
        ["compare"] => compare(1),
        ["compare", times] => times.parse().map_or_else(|_| usage(), compare),
        ["sample", "leaves", folder] => done(sample::leaves::sample().write(Path::new(folder))),
        ["sample", "sheets", folder] => done(sample::sheets::sample().write(Path::new(folder))),
        ["sample", "accessors", folder] => done(sample::accessors::sample().write(Path::new(folder))),
        ["sample", "requests", folder] => done(sample::requests::sample().write(Path::new(folder))),
        ["bounds"] => bounds(),
        ["measure", table, side] => table_cases(table, side, |name, mut round| {
            println!("{name}");
            round();
            measure::measured_round(&mut round);
        }),
        ["time", table, side] => table_cases(table, side, |_, round| println!("{:.0}", measure::nanoseconds(round))),
        ["sheets", folder] => done(sheets(Path::new(folder))),
        ["ask", side, sheet] => Side::of(side).map_or_else(usage, |side| done(ask(side, Path::new(sheet)))),
        ["accessors"] => done(printed(program::accessors)),
        ["verdicts"] => done(printed(program::verdicts)),
        _ => usage(),
    }
}

fn compare(times: u64) -> ExitCode {
    if compare::all(times) {
        ExitCode::SUCCESS
    } else {
        ExitCode::FAILURE
    }
}

fn bounds() -> ExitCode {
    for bound in generate::bounds::all() {
        match bound.expected {
            None => println!("{}: admitted", bound.name),
            Some(Refusal { number, line, column }) => {
                println!("{}: {number} at line {line} column {column}", bound.name)
            }
        }
    }
    ExitCode::SUCCESS
}

/// Does something with each case of a table.
fn table_cases(table: &str, side: &str, mut each: impl FnMut(&str, Round)) -> ExitCode {
    let Some(cases) = Side::of(side).and_then(|side| measure::cases(table, side)) else {
        return usage();
    };
    cases.into_iter().for_each(|(name, round)| each(&name, round));
    ExitCode::SUCCESS
}

fn sheets(folder: &Path) -> io::Result<()> {
    measure::write_all(folder)?.iter().for_each(|line| println!("{line}"));
    Ok(())
}

/// Every kind of request on the last field of a sheet, by one side.
fn ask(side: Side, sheet: &Path) -> io::Result<()> {
    let bytes = fs::read(sheet)?;
    measure::warm_up(side);
    for ((name, _), mut round) in measure::asked(&bytes).into_iter().zip(measure::of_sheet(&bytes, side)) {
        println!("{name}");
        measure::measured_round(&mut round);
    }
    Ok(())
}

/// What a program must print for the sheet on standard input.
fn printed(program: fn(&[u8]) -> Vec<u8>) -> io::Result<()> {
    let mut sheet = Vec::new();
    io::stdin().read_to_end(&mut sheet)?;
    io::stdout().write_all(&program(&sheet))
}

fn done(result: io::Result<()>) -> ExitCode {
    match result {
        Ok(()) => ExitCode::SUCCESS,
        Err(error) => {
            eprintln!("oracle: {error}");
            ExitCode::FAILURE
        }
    }
}

fn usage() -> ExitCode {
    eprintln!("{USAGE}");
    ExitCode::from(2)
}
