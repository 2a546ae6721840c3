//! Torn and random bytes: whatever is handed in is answered by a text or by a refusal, and `ask` holds every byte of
//! the buffer that must not change against what stood there before.

use crate::common::{ask, levels, requests, sheet, told, Random, PLACES, WARD};
use kitlubas::{admit, Level, Request, Sheet, Verdict};
use std::thread;

/// Asks something at random of a sheet, at any level, with a buffer that is mostly too short.
fn ask_anything(sheet: &[u8], random: &mut Random) {
    let mut all = requests();
    all.push(Request::Zeroing);
    let levels: Vec<Level> = levels().collect();
    let request = all[random.below(all.len())].at(levels[random.below(levels.len())]);
    let node = if random.below(8) == 0 { random.next() } else { [7, 9][random.below(2)] };
    let place = if random.below(8) == 0 { random.next() } else { random.below(PLACES as usize + 1) as u64 };
    let length = [0, 1, 50, 200, 1000][random.below(5)];
    let fill = if random.below(4) == 0 { random.below(length + 2) } else { 0 };
    let answer = ask(sheet, (node, place), request, length, fill);
    match (admit(sheet), answer) {
        (Ok(()), _) => {}
        (Err(refusal), answer) if fill <= length => assert_eq!(answer, Err(told(refusal))),
        (Err(_), answer) => assert_eq!(answer, Err((21, None))),
    }
}

fn newlines(bytes: &[u8]) -> usize {
    bytes.iter().filter(|&&byte| byte == b'\n').count()
}

/// Cut off after each of its bytes, a sheet is whole only where a node or a slot ends.
#[test]
fn torn_sheets() {
    let ward = sheet(WARD);
    let mut random = Random(1);
    let mut whole = 0;
    for cut in 0..=ward.len() {
        let torn = &ward[..cut];
        match admit(torn) {
            Ok(()) => whole += 1,
            // The line that is torn, or the one that is missing.
            Err(refusal) => assert_eq!(told(refusal), (2, Some((1 + newlines(torn), 1)))),
        }
        for _ in 0..4 {
            ask_anything(torn, &mut random);
        }
    }
    // Behind each N, behind P, behind each of eight slots, and between the two words of one of them.
    assert_eq!(whole, 12);
}

#[test]
fn random_bytes() {
    let mut random = Random(2);
    for _ in 0..20_000 {
        let length = random.below(300);
        let bytes: Vec<u8> = (0..length).map(|_| random.next() as u8).collect();
        assert!(admit(&bytes).is_err());
        ask_anything(&bytes, &mut random);
    }
}

/// Bytes of the kind that sheets are made of.
#[test]
fn random_letters_and_digits() {
    let mut random = Random(3);
    let alphabet = b"RNPFGTSUVW 0123456789\n\n   ";
    for _ in 0..20_000 {
        let mut bytes = b"R ::capnp\n".to_vec();
        bytes.extend((0..random.below(400)).map(|_| alphabet[random.below(alphabet.len())]));
        ask_anything(&bytes, &mut random);
    }
}

/// A whole sheet in which a few bytes, or the order of lines, are changed.
#[test]
fn damaged_sheets() {
    let ward = sheet(WARD);
    let mut random = Random(4);
    for _ in 0..20_000 {
        let mut bytes = ward.clone();
        for _ in 0..1 + random.below(3) {
            let at = random.below(bytes.len());
            bytes[at] = if random.below(2) == 0 { b"0123456789 \n"[random.below(12)] } else { random.next() as u8 };
        }
        ask_anything(&bytes, &mut random);
    }
}

/// Lines of a sheet, in any order and number.
#[test]
fn shuffled_lines() {
    let mut random = Random(5);
    let lines: Vec<&str> = WARD.split_inclusive('\n').collect();
    for _ in 0..5_000 {
        let mut short = lines[..2].concat();
        for _ in 0..random.below(40) {
            short += lines[random.below(lines.len())];
        }
        ask_anything(&sheet(&short), &mut random);
    }
}

/// Sheets around the longest length.
#[test]
fn the_longest_sheets() {
    let mut random = Random(6);
    let start = sheet("R ::capnp\nN 7 0 0 1 0 0 0 bed\n");
    let slot = sheet("F 3 65535 1 0 isFree\nT 1 0 0 0\nV 1 1\n");
    for count in 255..300 {
        let bytes = [&start[..], &slot.repeat(count)[..]].concat();
        let expected = if bytes.len() > 65_536 { Err((1, None)) } else { Ok(()) };
        assert_eq!(admit(&bytes).map_err(told), expected);
        ask_anything(&bytes, &mut random);
    }
}

/// Runs on a thread of exactly the stack that the crate promises to get along with.
fn on_a_small_stack(work: impl FnOnce() + Send + 'static) {
    let thread = thread::Builder::new().stack_size(64 * 1024).spawn(work).expect("a thread can be started");
    thread.join().expect("the work is done");
}

/// Asks for a text in each way that there is, straight from the bytes and over the sheet's index, at the lowest level and at
/// the highest: with room for it, and with a byte too little.
fn answered(bytes: &[u8], at: (u64, u64), request: Request) {
    for asked in [Level::default(), Level::MOST].map(|level| request.at(level)) {
        let text = ask(bytes, at, asked, 1 << 17, 0).expect("there is a text");
        assert_eq!(ask(bytes, at, asked, text.len() - 1, 0), Err((22, None)));
    }
}

/// A sheet, and the same made as long as a sheet may be by a node of many groups: the longer one is admitted over the
/// largest tables.
fn short_and_long(short: &str) -> [Vec<u8>; 2] {
    let start = sheet(&format!("{short}N 99 0 0 1 0 0 0 bed\n")).len();
    let room = (65_536 - start) / sheet("G 100 65535 g\n").len();
    let groups: String = (100..100 + room).map(|id| format!("G {id} 65535 g\n")).collect();
    [sheet(short), sheet(&format!("{short}N 99 0 0 1 0 0 0 bed\n{groups}"))]
}

/// The deepest types, and as many group ids as a sheet holds, on a thread with little stack.
#[test]
fn a_small_stack() {
    let lists = format!("{}T 16 7 0 0\nV 14 0\n", "T 14 0 0 0\n".repeat(15));
    let brands = format!("{}T 12 0 0 0\nV 16 0\n", "T 16 7 1 0\nS 7 1 1\n".repeat(15));
    let enums = format!("T 15 7 1 0\nS 7 1 1\n{}T 12 0 0 0\nV 15 2\n", "T 16 7 1 0\nS 7 1 1\n".repeat(14));
    let start = "R ::capnp\nN 7 0 0 1 1 0 0 bed\nP Plan\nF 0 65535 0 0 plan\n";
    let groups: String = (1..1300).map(|id| format!("G {id} 65535 g\n")).collect();
    on_a_small_stack(move || {
        for (typ, verdict) in [(lists, None), (brands, None), (enums, Some(Verdict::CombinedWithDefault))] {
            let bytes = sheet(&[start, &typ, &groups].concat());
            requests().iter().for_each(|&request| answered(&bytes, (7, 0), request));
            let admitted = Sheet::admit(&bytes).expect("it is a sheet");
            let fields: Vec<_> = admitted.nodes().flat_map(|node| node.fields()).collect();
            assert_eq!(fields.len(), 1300);
            assert_eq!(fields.iter().find_map(|field| field.verdict()), verdict);
        }
    });
}

/// A brand 16 deep over a chain of 16 nodes, bound by the outermost, by the innermost, by every second node and by all.
#[test]
fn the_deepest_brands_on_a_small_stack() {
    let chain: String =
        (1..=16).map(|id| format!("N {id} {} 0 1 1 0 0 bed\nP Plan\n", if id == 16 { 0 } else { id + 1 })).collect();
    let brand = |scopes: &[u64], inner: &str| {
        let plain: String = scopes[1..].iter().map(|id| format!("S {id} 1 1\nT 12 0 0 0\n")).collect();
        format!("T 16 1 {} 0\nS {} 1 1\n{inner}{plain}", scopes.len(), scopes[0])
    };
    for scopes in [vec![16], vec![1], (1..=16).step_by(2).collect::<Vec<u64>>(), (1..=16).rev().collect()] {
        let typ = (0..15).fold("T 12 0 0 0\n".to_string(), |inner, _| brand(&scopes, &inner));
        let short = format!("R ::capnp\n{chain}N 17 0 0 1 0 0 0 ward\nF 0 65535 0 0 plan\n{typ}V 16 0\n");
        for bytes in short_and_long(&short) {
            on_a_small_stack(move || requests().iter().for_each(|&request| answered(&bytes, (17, 0), request)));
        }
    }
}

/// Groups 16 deep, each with slots and a tag; and a 17th, which is refused where the deepest calls stand.
#[test]
fn the_deepest_groups_on_a_small_stack() {
    let slots = "F 1 65535 0 0 a\nT 7 0 0 0\nV 7 0\nF 1 65535 0 0 b\nT 12 0 0 0\nV 12 0\n";
    let nodes: String = (1..=17)
        .map(|id| format!("N {id} 0 0 1 0 2 9 bed\n{slots}G {} 65535 inner\n", id + 1))
        .chain([format!("N 18 0 0 1 0 2 9 bed\n{slots}")])
        .collect();
    for bytes in short_and_long(&format!("R ::capnp\n{nodes}")) {
        on_a_small_stack(move || {
            answered(&bytes, (2, 2), Request::Zeroing);
            assert_eq!(ask(&bytes, (1, 2), Request::Zeroing, 1 << 17, 0), Err((4, None)));
        });
    }
}
