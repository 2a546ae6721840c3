//! Names with accents against request N2: which letters there are, what capnpc's functions make of them, which bytes are taken
//! for a name, and that the generators make both sorts.

use oracle::codegen::exact::{camel_to_snake_case, module_name};
use oracle::names::{self, accented_letters, default_name, taken, ACCENTED_CAPITALS, ACCENTED_SMALL};
use oracle::random::Random;
use oracle::sheet::read::is_accented;

#[test]
fn the_letters() {
    let codes: Vec<u32> = accented_letters().into_iter().map(u32::from).collect();
    let expected: Vec<u32> = (0xc0..=0xff).filter(|code| ![0xd7, 0xf7].contains(code)).collect();
    assert_eq!(codes, expected);
    assert!(('\0'..=char::MAX).filter(|&c| is_accented(c)).eq(accented_letters()));
    assert_eq!((ACCENTED_CAPITALS.len(), ACCENTED_SMALL.len()), (60, 64));
    assert!(ACCENTED_CAPITALS.chars().all(|c| c <= '\u{de}') && ACCENTED_SMALL.chars().all(|c| c >= '\u{df}'));
}

#[test]
fn only_ascii_is_lowered_and_raised() {
    for (name, snake, default) in [
        ("étatÄ", "état_Ä", "DEFAULT_éTAT_Ä"),
        ("möbelÄnderung", "möbel_Änderung", "DEFAULT_MöBEL_ÄNDERUNG"),
        ("Übergabe", "Übergabe", "DEFAULT_ÜBERGABE"),
        ("straßeNr", "straße_nr", "DEFAULT_STRAßE_NR"),
        ("ÖØöø", "Ö_Øöø", "DEFAULT_Ö_Øöø"),
        ("_Ä", "__Ä", "DEFAULT___Ä"),
        ("ÉB", "É_b", "DEFAULT_É_B"),
    ] {
        assert_eq!((camel_to_snake_case(name), default_name(name)), (snake.to_string(), default.to_string()));
        assert_eq!(module_name(name), snake);
    }
}

#[test]
fn capitals_have_an_underscore_in_front_unless_they_come_first() {
    for letter in ACCENTED_CAPITALS.chars() {
        assert_eq!(camel_to_snake_case(&format!("{letter}a{letter}")), format!("{letter}a_{letter}"));
    }
    for letter in ACCENTED_SMALL.chars() {
        assert_eq!(camel_to_snake_case(&format!("{letter}a{letter}")), format!("{letter}a{letter}"));
    }
}

#[test]
fn a_snake_name_has_at_most_127_bytes() {
    let longest = names::accents_at_bounds().iter().map(|name| camel_to_snake_case(name).len()).max();
    assert_eq!((longest, camel_to_snake_case(&"Z".repeat(64)).len()), (Some(126), 127));
    let random = &mut Random::new(13);
    assert!((0..10_000).all(|_| camel_to_snake_case(&names::accented(random, 64)).len() <= 127));
}

#[test]
fn what_is_taken() {
    let letters = "é".repeat(32);
    let mixed = format!("{}é", "a".repeat(62));
    for name in ["", "a", "Ä", "ÖØöø", "a b\n\0\u{7f}", &"a".repeat(64), &letters, &mixed] {
        assert_eq!(taken(name.as_bytes()), Some(name));
    }
    let pairs = (0..=u8::MAX).filter(|&second| taken(&[0xc3, second]).is_some());
    assert!(pairs.eq((0x80..=0xbf).filter(|second| ![0x97, 0xb7].contains(second))));
    let long = [format!("{}é", "a".repeat(63)), "a".repeat(65), "é".repeat(33)];
    let beyond = ["ā", "¿", "×", "÷", "A\u{308}", "ẞ", "🛏"].map(String::from);
    assert!(long.iter().chain(&beyond).all(|name| taken(name.as_bytes()).is_none()));
    let no_text: [&[u8]; 8] =
        [b"\xc3", b"\xa9", b"a\xc3b", b"\xe4", b"\xc1\x81", b"\xe0\x83\x84", b"\xc3\xc3\xa9", b"\xc3\xa9\xa9"];
    assert!(no_text.iter().all(|bytes| taken(bytes).is_none()));
}

#[test]
fn random_names_have_their_length() {
    let random = &mut Random::new(14);
    for length in 0..=64 {
        assert_eq!((names::random(random, length).len(), names::accented(random, length).len()), (length, length));
    }
    let made: String = (0..1_000).map(|_| names::accented(random, 64)).collect();
    assert!(accented_letters().into_iter().all(|letter| made.contains(letter)));
}

#[test]
fn damaged_names_are_mostly_not_taken() {
    let random = &mut Random::new(15);
    let count = (0..10_000).filter(|_| taken(&names::damaged(random)).is_some()).count();
    assert!((1_000..5_000).contains(&count), "{count} are taken");
}
