//! The sheet reader against document 01 and request N2: every bound with the answer written down for it, and what is printed
//! read back.

use oracle::generate::{self, bounds, damage};
use oracle::random::Random;
use oracle::sheet::print::print;
use oracle::sheet::read::read;
use std::collections::HashSet;

#[test]
fn every_bound_has_its_answer() {
    let bounds = bounds::all();
    let names: HashSet<&str> = bounds.iter().map(|bound| bound.name.as_str()).collect();
    assert!(bounds.len() >= 200);
    assert_eq!(names.len(), bounds.len(), "names are told apart");
    for bound in &bounds {
        assert_eq!(read(&bound.bytes).err(), bound.expected, "{}", bound.name);
    }
}

#[test]
fn what_is_printed_is_read_back() {
    let random = &mut Random::new(11);
    for turn in 0..400 {
        let (sheet, bytes) = generate::sheet(random, turn);
        assert!(read(&bytes).as_ref() == Ok(&sheet), "turn {turn}");
    }
}

#[test]
fn what_is_admitted_is_printed_back() {
    let random = &mut Random::new(12);
    let mut admitted = 0;
    for turn in 0..4000 {
        let (_, whole) = generate::sheet(random, turn);
        let bytes = damage::damaged(random, &whole);
        if let Ok(sheet) = read(&bytes) {
            admitted += 1;
            assert!(print(&sheet) == bytes, "turn {turn}");
        }
    }
    assert!(admitted > 100, "{admitted} damaged sheets are still admitted");
}

#[test]
fn what_is_no_utf_8_is_refused() {
    let random = &mut Random::new(16);
    let mut torn = 0;
    for turn in 0..4000 {
        let (_, whole) = generate::sheet(random, turn);
        let bytes = damage::damaged(random, &whole);
        if str::from_utf8(&bytes).is_err() {
            torn += 1;
            assert!(read(&bytes).is_err(), "turn {turn}");
        }
    }
    assert!(torn > 100, "{torn} damaged sheets are no UTF-8");
}
