//! The fill count at every bound: a text that is just as long as the free part fits, one byte less is 22, and a fill
//! count above the buffer's length is 21.

use crate::common::{ask, requests, sheet, text, Told, PLACES, WARD};

const TOO_FULL: Result<String, Told> = Err((21, None));
const NO_ROOM: Result<String, Told> = Err((22, None));

#[test]
fn every_text_at_its_bounds() {
    let ward = sheet(WARD);
    let mut answered = 0;
    for place in 0..PLACES {
        for request in requests() {
            let Ok(whole) = text(&ward, (7, place), request) else { continue };
            answered += 1;
            for fill in [0, 1, 7, 64, 4096] {
                let ask = |length| ask(&ward, (7, place), request, length, fill);
                assert_eq!(ask(fill + whole.len()), Ok(whole.clone()));
                assert_eq!(ask(fill + whole.len() + 1), Ok(whole.clone()));
                assert_eq!(ask(fill + whole.len() - 1), NO_ROOM);
                assert_eq!(ask(fill), NO_ROOM);
                if fill > 0 {
                    assert_eq!(ask(fill - 1), TOO_FULL);
                    assert_eq!(ask(0), TOO_FULL);
                }
            }
        }
    }
    assert_eq!(answered, 140);
}

/// Every length of a buffer, from none to more than enough, and every fill count up to one past its end.
#[test]
fn every_length_and_fill_count_of_one_text() {
    let ward = sheet(WARD);
    let request = requests()[0];
    let whole = text(&ward, (7, 0), request).expect("the request is answered");
    for length in 0..whole.len() + 20 {
        for fill in 0..=length {
            let expected = if length - fill < whole.len() { NO_ROOM } else { Ok(whole.clone()) };
            assert_eq!(ask(&ward, (7, 0), request, length, fill), expected);
        }
        assert_eq!(ask(&ward, (7, 0), request, length, length + 1), TOO_FULL);
    }
}

#[test]
fn the_largest_fill_counts() {
    let ward = sheet(WARD);
    for fill in [usize::MAX, usize::MAX - 1, usize::MAX / 2 + 1, 1 << 32] {
        for request in requests() {
            assert_eq!(ask(&ward, (7, 0), request, 100, fill), TOO_FULL);
        }
    }
}
