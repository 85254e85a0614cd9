//! Delays by pair, on the worked store: after p3 it has 16 under 1 2 and
//! -16 under 2 1.

use super::worked_store::{FIELDS, after_p3, after_p6, block, block_of, store_x, with};
use crate::{delay, lookup, remove, set_delay, store};

/// A set that is refused, with the image as it was.
#[track_caller]
fn refuses(block: &[u8], image: &[u8], (a, b): (u32, u32), given: i32, number: u32) {
    let mut after = image.to_vec();
    assert_eq!(set_delay(block, &mut after, a, b, given), number);
    assert_eq!(after, image);
}

#[test]
fn only_the_key_with_the_smaller_channel_first_counts() {
    let mut image = after_p3();
    assert_eq!(delay(&block(), &image, 1, 2), (0, 16));
    assert_eq!(delay(&block(), &image, 2, 1), (0, -16));
    assert_eq!(store(&block(), &mut image, &[2, 1], &[5, 0, 0, 0]), 0);
    assert_eq!(delay(&block(), &image, 2, 1), (0, -16));
    assert_eq!(remove(&block(), &mut image, &[1, 2]), 0);
    assert_eq!(delay(&block(), &image, 2, 1), (1, 0));
}

#[test]
fn a_set_in_either_order_is_a_store_of_the_kept_one() {
    for (a, b, given, kept) in [
        (3, 7, 16, [0x10, 0, 0, 0]),
        (7, 3, 16, [0xF0, 0xFF, 0xFF, 0xFF]),
        (7, 3, i32::MAX, [1, 0, 0, 0x80]),
        (3, 7, i32::MIN + 1, [1, 0, 0, 0x80]),
        (7, 3, i32::MIN + 1, [0xFF, 0xFF, 0xFF, 0x7F]),
        (7, 3, 0, [0; 4]),
    ] {
        let (mut set, mut stored) = (after_p3(), after_p3());
        assert_eq!(set_delay(&block(), &mut set, a, b, given), 0);
        assert_eq!(store(&block(), &mut stored, &[3, 7], &kept), 0);
        assert_eq!(set, stored);
        assert_eq!(delay(&block(), &set, a, b), (0, given));
        assert_eq!(delay(&block(), &set, b, a), (0, -given));
    }
}

#[test]
fn the_first_and_the_last_channel() {
    let mut image = store_x();
    assert_eq!(set_delay(&block(), &mut image, 32, 1, 3), 0);
    assert_eq!(lookup(&block(), &image, &[1, 32]).0, 0);
    assert_eq!(delay(&block(), &image, 1, 32), (0, -3));
}

#[test]
fn channels_that_make_no_pair() {
    let image = after_p3();
    for bad in [0, 33, 256, 257, 258, 0x8000_0001, u32::MAX] {
        for pair in [(bad, 2), (2, bad), (bad, bad)] {
            assert_eq!(delay(&block(), &image, pair.0, pair.1), (11, 0));
            refuses(&block(), &image, pair, 1, 11);
            refuses(&block(), &image, pair, i32::MIN, 11);
        }
    }
    assert_eq!(delay(&block(), &image, 1, 1), (11, 0));
    refuses(&block(), &image, (32, 32), 1, 11);
}

#[test]
fn records_that_are_no_delays() {
    let least = i32::MIN.to_le_bytes();
    for record in [&[][..], &[0; 3], &[0; 5], &least] {
        let mut image = after_p3();
        assert_eq!(store(&block(), &mut image, &[1, 2], record), 0);
        assert_eq!(delay(&block(), &image, 1, 2), (12, 0));
        assert_eq!(delay(&block(), &image, 2, 1), (12, 0));
        refuses(&block(), &image, (1, 2), i32::MIN, 12);
        assert_eq!(set_delay(&block(), &mut image, 2, 1, -8), 0);
        assert_eq!(delay(&block(), &image, 1, 2), (0, 8));
    }
}

#[test]
fn the_images_numbers_come_first() {
    let marked = with(after_p3(), &[(224, &[7])]);
    for (block, number) in [(block(), 7), (vec![], 2)] {
        assert_eq!(delay(&block, &marked, 0, 0), (number, 0));
        refuses(&block, &marked, (0, 0), i32::MIN, number);
        refuses(&block, &marked, (1, 2), i32::MIN, number);
    }
}

#[test]
fn a_full_store_comes_last() {
    refuses(&block(), &after_p6(), (6, 7), 1, 10);
    refuses(&block(), &after_p6(), (6, 7), i32::MIN, 12);
    refuses(&block(), &after_p6(), (6, 6), 1, 11);
}

/// Chunks of seven bytes, one for an entry, are too small for eight.
#[test]
fn an_entry_too_large_comes_after_pair_and_delay() {
    let mut fields = FIELDS;
    (fields[11], fields[16]) = (7, 1);
    refuses(&block_of(fields), &store_x(), (1, 2), 1, 9);
    refuses(&block_of(fields), &store_x(), (1, 2), i32::MIN, 12);
    refuses(&block_of(fields), &store_x(), (2, 2), 1, 11);
    fields[11] = 8;
    assert_eq!(set_delay(&block_of(fields), &mut store_x(), 1, 2, 1), 0);
}
