//! The quick lookup on the worked store, whole and damaged. The images come
//! from stores, the damaged answers were worked out by hand.

use super::worked_store::{block, store_x, with};
use crate::{check, delay, lookup, quick_delay, quick_lookup, store};

pub type Answer = (u32, [u64; 4]);
type Damage<'a> = &'a [(usize, &'a [u8])];

/// What three keys answer: 01 02, 02 01 and 03 01.
type Three = [Answer; 3];

pub const BROKEN: Answer = (18, [0; 4]);
const FIRST: Answer = (0, [236, 4, 1, 1]);
const SECOND: Answer = (0, [244, 4, 1, 2]);
const THIRD_ABSENT: Answer = (1, [0, 0, 1, 3]);

fn built(entries: &[([u8; 2], [u8; 4])]) -> Vec<u8> {
    let mut image = store_x();
    for (key, record) in entries {
        assert_eq!(store(&block(), &mut image, key, record), 0, "{key:02X?}");
    }
    image
}

const ENTRIES: [([u8; 2], [u8; 4]); 6] = [
    ([1, 2], [0x10, 0, 0, 0]),
    ([2, 1], [0xF0, 0xFF, 0xFF, 0xFF]),
    ([3, 1], [1, 2, 3, 4]),
    ([1, 3], [1, 2, 3, 4]),
    ([4, 1], [1, 2, 3, 4]),
    ([5, 1], [1, 2, 3, 4]),
];

pub fn built_to_p3() -> Vec<u8> {
    built(&ENTRIES[..2])
}

pub fn built_to_p5() -> Vec<u8> {
    built(&ENTRIES[..4])
}

pub fn built_to_p6() -> Vec<u8> {
    built(&ENTRIES)
}

#[track_caller]
pub fn answers(image: &[u8], key: &[u8], answer: Answer) {
    assert_eq!(quick_lookup(&block(), image, key), answer, "{key:02X?}");
}

/// The checked lookup refuses a damaged image whatever the key.
#[track_caller]
fn damaged(damage: Damage, checked: u32, three: Three) {
    let image = with(built_to_p3(), damage);
    for (key, answer) in [[1, 2], [2, 1], [3, 1]].iter().zip(three) {
        assert_eq!(lookup(&block(), &image, key), (checked, [0; 4]));
        answers(&image, key, answer);
    }
}

#[test]
fn worked_after_p3() {
    answers(&built_to_p3(), &[1, 2], FIRST);
    answers(&built_to_p3(), &[2, 1], SECOND);
    answers(&built_to_p3(), &[3, 1], THIRD_ABSENT);
}

#[test]
fn worked_after_p5_and_p6() {
    answers(&built_to_p5(), &[1, 3], (0, [436, 4, 2, 1]));
    answers(&built_to_p5(), &[6, 1], (1, [0, 0, 2, 2]));
    // The search wraps.
    answers(&built_to_p6(), &[6, 1], (1, [0, 0, 2, 0]));
}

#[test]
fn worked_next() {
    let free_tier = (1, [0, 0, 2, 1]);
    damaged(&[(80, &[2])], 5, [FIRST, SECOND, free_tier]);
    damaged(&[(80, &[1])], 5, [FIRST, SECOND, BROKEN]);
    damaged(&[(80, &[3])], 5, [FIRST, SECOND, BROKEN]);
}

#[test]
fn worked_bits() {
    damaged(&[(224, &[0])], 7, [FIRST, SECOND, THIRD_ABSENT]);
}

#[test]
fn worked_slots() {
    damaged(&[(100, &[0x11])], 6, [BROKEN; 3]);
    damaged(&[(100, &[0x21])], 6, [FIRST, SECOND, THIRD_ABSENT]);
    // Slot 2 names the first entry too: the second has no slot any more.
    damaged(&[(104, &[1])], 6, [FIRST, THIRD_ABSENT, THIRD_ABSENT]);
    let no_empty_slot = [2, 0, 0, 0, 1, 0, 0, 0, 3, 0, 0, 0, 2, 0, 0, 0];
    damaged(&[(96, &no_empty_slot)], 6, [FIRST, SECOND, BROKEN]);
}

#[test]
fn worked_lengths() {
    damaged(&[(235, &[0x84, 0])], 6, [BROKEN; 3]);
    damaged(&[(243, &[0x84, 0])], 6, [FIRST, BROKEN, BROKEN]);
    let with_length = |length| (0, [236, length, 1, 1]);
    let found = |length| [with_length(length), SECOND, THIRD_ABSENT];
    damaged(&[(235, &[0x1D])], 6, found(29));
    damaged(&[(235, &[0x3C])], 6, found(60));
    damaged(&[(235, &[0x3D])], 6, [BROKEN; 3]);
}

#[test]
fn worked_tier_that_leads_to_itself() {
    let image = with(built_to_p5(), &[(360, &[2])]);
    assert_eq!(check(&block(), &image).0, 5);
    answers(&image, &[1, 3], (0, [436, 4, 2, 1]));
    answers(&image, &[6, 1], BROKEN);
}

#[test]
fn accepted_images_answer_as_the_checked_calls() {
    for entries in 0..=ENTRIES.len() {
        let image = built(&ENTRIES[..entries]);
        for key in (0..=6).flat_map(|a| (0..=6).map(move |b| [a, b])) {
            let quick = quick_lookup(&block(), &image, &key);
            assert_eq!(quick, lookup(&block(), &image, &key), "{key:02X?}");
            let [a, b] = key.map(u32::from);
            let quick = quick_delay(&block(), &image, a, b);
            assert_eq!(quick, delay(&block(), &image, a, b), "{a} {b}");
        }
        for key in [&[][..], &[7; 1024], &[7; 1025]] {
            let quick = quick_lookup(&block(), &image, key);
            assert_eq!(quick, lookup(&block(), &image, key), "{}", key.len());
        }
    }
}
