//! Both searches for byte 10, held against a plain one from every start, at and past the end too.

use oracle::boundary::ends::{by_bytes, by_words};
use oracle::random::Random;

/// Bytes near 10: its neighbours, the same with the highest bit, and ends of the range.
const NEAR: [u8; 8] = [0, 9, 11, 26, 127, 128, 138, 255];

fn plain(s: &[u8], from: usize) -> Option<usize> {
    (from..s.len()).find(|&at| s[at] == b'\n')
}

fn held(s: &[u8]) {
    for from in (0..=s.len() + 9).chain([usize::MAX]) {
        assert_eq!(by_words(s, from), plain(s, from), "by words from {from} in {s:?}");
        assert_eq!(by_bytes(s, from), plain(s, from), "by bytes from {from} in {s:?}");
    }
}

#[test]
fn one_byte_10_in_every_place_among_every_other_byte() {
    for other in (0..=255).filter(|&other| other != b'\n') {
        for len in [0, 1, 7, 8, 9, 16, 17] {
            held(&vec![other; len]);
            for place in 0..len {
                let mut s = vec![other; len];
                s[place] = b'\n';
                held(&s);
            }
        }
    }
}

#[test]
fn random_bytes_near_10() {
    let random = &mut Random::new(17);
    for _ in 0..2_000 {
        let len = random.between(0, 40);
        let s: Vec<u8> = (0..len).map(|_| if random.once_in(9) { b'\n' } else { *random.pick(&NEAR) }).collect();
        held(&s);
    }
}
