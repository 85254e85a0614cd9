//! Where a lookup ended: tier and slot of the entry, or of the empty slot
//! that ended the search for an absent key.

use super::worked_store::{
    FIELDS, after_p2, after_p3, after_p4, after_p5, after_p6, block, block_of, store_x, with,
};
use crate::{check, delay, lookup, remove, set_delay, store, xxh64};

#[track_caller]
fn found(block: &[u8], image: &[u8], key: &[u8], numbers: [u64; 4]) {
    assert_eq!(lookup(block, image, key), (0, numbers), "{key:02X?}");
}

#[track_caller]
fn absent(block: &[u8], image: &[u8], key: &[u8], tier: u64, slot: u64) {
    let answer = (1, [0, 0, tier, slot]);
    assert_eq!(lookup(block, image, key), answer, "{key:02X?}");
}

#[track_caller]
fn refused(block: &[u8], image: &[u8], key: &[u8], number: u32) {
    let length = key.len();
    assert_eq!(lookup(block, image, key), (number, [0; 4]), "{length}");
}

/// Stores records of four bytes: with a key of two, one chunk each.
#[track_caller]
pub fn put(block: &[u8], image: &mut [u8], keys: &[[u8; 2]]) {
    for key in keys {
        assert_eq!(store(block, image, key, &[9; 4]), 0, "{key:02X?}");
    }
}

#[track_caller]
pub fn drop_keys(block: &[u8], image: &mut [u8], keys: &[[u8; 2]]) {
    for key in keys {
        assert_eq!(remove(block, image, key), 0, "{key:02X?}");
    }
}

#[test]
fn worked_empty_store() {
    absent(&block(), &store_x(), &[1, 2], 1, 1);
}

#[test]
fn worked_after_p2() {
    found(&block(), &after_p2(), &[1, 2], [236, 4, 1, 1]);
    absent(&block(), &after_p2(), &[2, 1], 1, 2);
}

#[test]
fn worked_after_p4() {
    found(&block(), &after_p4(), &[3, 1], [252, 4, 1, 3]);
    absent(&block(), &after_p4(), &[1, 3], 1, 0);
}

#[test]
fn worked_after_p5() {
    found(&block(), &after_p5(), &[1, 3], [436, 4, 2, 1]);
    absent(&block(), &after_p5(), &[4, 1], 2, 2);
    refused(&block(), &after_p5(), &[], 8);
    let unmarked = with(after_p5(), &[(224, &[0])]);
    for key in [&[][..], &[1, 2], &[1, 3], &[4, 1], &[7; 1025]] {
        refused(&block(), &unmarked, key, 7);
    }
}

#[test]
fn every_entry_has_its_own_tier_and_slot() {
    for (key, numbers) in [
        ([1, 2], [236, 4, 1, 1]),
        ([2, 1], [244, 4, 1, 2]),
        ([3, 1], [252, 4, 1, 3]),
        ([1, 3], [436, 4, 2, 1]),
        ([4, 1], [444, 4, 2, 2]),
        ([5, 1], [452, 4, 2, 3]),
    ] {
        found(&block(), &after_p6(), &key, numbers);
    }
}

#[test]
fn the_end_moves_with_every_entry() {
    let images = [
        (store_x(), 1, 1),
        (after_p2(), 1, 2),
        (after_p3(), 1, 3),
        (after_p4(), 1, 0),
        (after_p5(), 2, 2),
        (after_p6(), 2, 0),
    ];
    for (image, tier, slot) in images {
        absent(&block(), &image, &[6, 1], tier, slot);
    }
}

/// Its length is 0 as with an absent key; the number tells them apart.
#[test]
fn an_empty_record_is_found() {
    let mut image = after_p2();
    assert_eq!(store(&block(), &mut image, &[2, 1], &[]), 0);
    found(&block(), &image, &[2, 1], [244, 0, 1, 2]);
}

/// No entry can have this key, so it is absent like any other.
#[test]
fn a_key_too_long_for_an_entry_is_searched() {
    absent(&block(), &after_p5(), &[7; 1024], 2, 2);
}

#[test]
fn slots_of_eight_bytes() {
    let mut fields = FIELDS;
    fields[3] = 8;
    let block = block_of(fields);
    let mut image = store_x();
    put(&block, &mut image, &[[1, 2], [2, 1]]);
    absent(&block, &image, &[3, 1], 1, 3);
    put(&block, &mut image, &[[3, 1]]);
    found(&block, &image, &[3, 1], [252, 4, 1, 3]);
    absent(&block, &image, &[1, 3], 1, 0);
}

/// X with three bulks, and the order of its free chain.
pub fn three_bulks(free: [u8; 3]) -> Vec<u8> {
    bulks(&free)
}

/// X with a bulk for each tier of this free chain.
pub fn bulks(free: &[u8]) -> Vec<u8> {
    let size = 296 + 200 * free.len();
    let mut image = store_x();
    image.resize(size, 0);
    for pair in free.windows(2) {
        image[200 * pair[0] as usize - 40] = pair[1];
    }
    let changes: [(usize, &[u8]); 3] = [
        (8, &[free.len() as u8]),
        (11, &free[..1]),
        (25, &size.to_le_bytes()),
    ];
    with(image, &changes)
}

/// Three entries in each of the first two tiers and one in the third.
pub const SEVEN: [[u8; 2]; 7] = [[1, 2], [2, 1], [3, 1], [1, 3], [4, 1], [5, 1], [6, 1]];

/// Tier 1 gets empty, then tier 2 in part, and the search still ends in
/// tier 3, though only slot 1 is full there.
#[test]
fn an_empty_slot_in_an_earlier_tier_does_not_end_the_search() {
    let mut image = three_bulks([2, 3, 4]);
    put(&block(), &mut image, &SEVEN);
    absent(&block(), &image, &[7, 1], 3, 2);
    drop_keys(&block(), &mut image, &SEVEN[..3]);
    assert_eq!(image[100], 0);
    absent(&block(), &image, &[7, 1], 3, 2);
    absent(&block(), &image, &SEVEN[0], 3, 2);
    found(&block(), &image, &[6, 1], [636, 4, 3, 1]);
    drop_keys(&block(), &mut image, &[[5, 1]]);
    put(&block(), &mut image, &[[5, 1]]);
    found(&block(), &image, &[5, 1], [236, 4, 1, 1]);
    absent(&block(), &image, &[7, 1], 3, 2);
}

/// The chain is 1, 4, 2, and tier 3 is free.
#[test]
fn the_last_tier_is_last_in_the_chain_and_not_by_its_index() {
    let mut image = three_bulks([4, 2, 3]);
    put(&block(), &mut image, &SEVEN[..6]);
    absent(&block(), &image, &[6, 1], 4, 0);
    put(&block(), &mut image, &SEVEN[6..]);
    assert_eq!(check(&block(), &image), (0, [7, 7, 3, 1]));
    found(&block(), &image, &[1, 3], [836, 4, 4, 1]);
    found(&block(), &image, &[6, 1], [436, 4, 2, 1]);
    absent(&block(), &image, &[7, 1], 2, 2);
}

/// Tier 2 as the store takes it, but for the entry.
#[test]
fn an_empty_tier_at_the_end_of_the_chain_is_searched() {
    let changes: [(usize, &[u8]); 5] =
        [(11, &[0]), (16, &[1]), (80, &[2]), (368, &[1]), (388, &[1])];
    let image = with(after_p4(), &changes);
    assert_eq!(check(&block(), &image), (0, [3, 3, 2, 0]));
    absent(&block(), &image, &[1, 3], 2, 1);
}

/// Two segments: headers from 64, main tiers from 128, the bulk from 528.
/// Four keys of the first segment need its main tier and the extra one.
#[test]
fn the_chain_is_that_of_the_keys_segment() {
    let mut fields = FIELDS;
    fields[1] = 2;
    let block = block_of(fields);
    let size = 728u64.to_le_bytes();
    let changes: [(usize, &[u8]); 5] =
        [(8, &[1]), (11, &[3]), (21, &[64]), (25, &size), (416, &[1])];
    let mut image = with(vec![0; 728], &changes);
    let keys_of = |segment| {
        let keys = (1..=32).map(|channel| [channel, 0]);
        keys.filter(move |key| xxh64(key) % 2 == segment)
    };
    let first: Vec<[u8; 2]> = keys_of(0).take(5).collect();
    let second: Vec<[u8; 2]> = keys_of(1).take(2).collect();
    put(&block, &mut image, &first[..4]);
    found(&block, &image, &first[3], [668, 4, 3, 1]);
    absent(&block, &image, &first[4], 3, 2);
    absent(&block, &image, &second[1], 2, 1);
    put(&block, &mut image, &second[..1]);
    found(&block, &image, &second[0], [468, 4, 2, 1]);
    absent(&block, &image, &second[1], 2, 2);
    absent(&block, &image, &first[4], 3, 2);
}

/// X with eight slots to a tier and eight key bits: searches start in any
/// slot.
pub fn wide_block() -> Vec<u8> {
    let mut fields = FIELDS;
    (fields[4], fields[5]) = (8, 8);
    block_of(fields)
}

/// The `n`-th key, two bytes long, whose search starts in this slot.
pub fn key_from(start: u64, n: usize) -> [u8; 2] {
    let starts = |key: &[u8; 2]| match xxh64(key) % 256 {
        0 => 7,
        part => part % 8,
    };
    let keys = (0..=u16::MAX).map(u16::to_be_bytes);
    let mut keys = keys.filter(|key| starts(key) == start);
    keys.nth(n).expect("two bytes make keys enough")
}

/// A store with these keys in tier 1, stored in this order.
#[track_caller]
pub fn wide_store(keys: &[[u8; 2]]) -> Vec<u8> {
    let mut image = store_x();
    put(&wide_block(), &mut image, keys);
    image
}

/// Where searches for absent keys end, for each start slot.
#[track_caller]
fn ends(image: &[u8], slots: [u64; 8]) {
    for (start, slot) in (0..).zip(slots) {
        absent(&wide_block(), image, &key_from(start, 20), 1, slot);
    }
}

#[test]
fn an_empty_start_slot_ends_the_search_at_once() {
    ends(&store_x(), [0, 1, 2, 3, 4, 5, 6, 7]);
    let image = wide_store(&[key_from(3, 0), key_from(5, 0)]);
    found(&wide_block(), &image, &key_from(5, 0), [244, 4, 1, 5]);
    ends(&image, [0, 1, 2, 4, 4, 6, 6, 7]);
}

#[test]
fn a_hash_part_of_0_starts_from_the_key_of_all_ones() {
    let mut keys = (0..=u16::MAX).map(u16::to_be_bytes);
    let key = keys.find(|key| xxh64(key).is_multiple_of(256)).unwrap();
    absent(&wide_block(), &store_x(), &key, 1, 7);
}

/// Three entries from slot 6 on take 6, 7 and 0.
#[test]
fn a_search_wraps() {
    let keys = [0, 1, 2].map(|n| key_from(6, n));
    let image = wide_store(&keys);
    found(&wide_block(), &image, &keys[0], [236, 4, 1, 6]);
    found(&wide_block(), &image, &keys[1], [244, 4, 1, 7]);
    found(&wide_block(), &image, &keys[2], [252, 4, 1, 0]);
    ends(&image, [1, 1, 2, 3, 4, 5, 1, 1]);
}

/// Seven entries from slot 3 on leave slot 2 only.
#[test]
fn one_empty_slot_ends_every_search() {
    let keys: Vec<[u8; 2]> = (0..7).map(|n| key_from(3, n)).collect();
    let image = wide_store(&keys);
    found(&wide_block(), &image, &keys[6], [284, 4, 1, 1]);
    ends(&image, [2; 8]);
}

#[test]
fn a_removal_moves_the_end_back() {
    let mut image = after_p4();
    for (key, slot) in [([1, 2], 3), ([2, 1], 2), ([3, 1], 1)] {
        drop_keys(&block(), &mut image, &[key]);
        absent(&block(), &image, &key, 1, slot);
        absent(&block(), &image, &[1, 3], 1, slot);
    }
    let mut image = after_p4();
    drop_keys(&block(), &mut image, &[[1, 2]]);
    found(&block(), &image, &[2, 1], [244, 4, 1, 1]);
    found(&block(), &image, &[3, 1], [252, 4, 1, 2]);
}

/// The key was in tier 1; once it is absent, its search ends in tier 2.
#[test]
fn a_removed_key_is_absent_at_the_chains_end() {
    let mut image = after_p6();
    drop_keys(&block(), &mut image, &[[1, 2]]);
    absent(&block(), &image, &[1, 2], 2, 0);
    drop_keys(&block(), &mut image, &[[4, 1]]);
    absent(&block(), &image, &[1, 2], 2, 3);
    absent(&block(), &image, &[4, 1], 2, 3);
    found(&block(), &image, &[5, 1], [452, 4, 2, 2]);
}

/// From the slots 6, 7 and 0 the entry in 0 moves over the wrap to 6; the
/// one in 7 starts there and stays.
#[test]
fn a_removal_moves_the_end_over_the_wrap() {
    let keys = [key_from(6, 0), key_from(7, 0), key_from(6, 1)];
    let mut image = wide_store(&keys);
    ends(&image, [1, 1, 2, 3, 4, 5, 1, 1]);
    drop_keys(&wide_block(), &mut image, &keys[..1]);
    found(&wide_block(), &image, &keys[1], [244, 4, 1, 7]);
    found(&wide_block(), &image, &keys[2], [252, 4, 1, 6]);
    ends(&image, [0, 1, 2, 3, 4, 5, 0, 0]);
    drop_keys(&wide_block(), &mut image, &keys[2..]);
    found(&wide_block(), &image, &keys[1], [244, 4, 1, 7]);
    ends(&image, [0, 1, 2, 3, 4, 5, 6, 0]);
}

/// One tier with room: the store takes the empty slot that was answered.
#[test]
fn a_store_fills_the_slot_that_ended_the_search() {
    let keys = [0, 1, 2].map(|n| key_from(6, n));
    let before = wide_store(&keys);
    for start in 0..8 {
        let key = key_from(start, 20);
        let (_, [_, _, tier, slot]) = lookup(&wide_block(), &before, &key);
        let mut image = before.clone();
        put(&wide_block(), &mut image, &[key]);
        found(&wide_block(), &image, &key, [260, 4, tier, slot]);
    }
}

/// Tier 1 is searched first, but the search ends in tier 2; and an end in a
/// tier with one empty slot left is no place to store in.
#[test]
fn a_store_may_place_the_key_elsewhere() {
    let mut image = after_p5();
    drop_keys(&block(), &mut image, &[[2, 1]]);
    absent(&block(), &image, &[4, 1], 2, 2);
    put(&block(), &mut image, &[[4, 1]]);
    found(&block(), &image, &[4, 1], [244, 4, 1, 3]);

    let mut image = after_p4();
    absent(&block(), &image, &[1, 3], 1, 0);
    put(&block(), &mut image, &[[1, 3]]);
    found(&block(), &image, &[1, 3], [436, 4, 2, 1]);
}

/// The check searches for the key of each entry: neither the slots before
/// its own nor an earlier tier may have it.
#[test]
fn a_key_with_two_slots_is_refused() {
    let twice_the_chunk = with(after_p3(), &[(104, &[1])]);
    assert_eq!(check(&block(), &twice_the_chunk).0, 6);
    let in_one_tier = with(after_p3(), &[(241, &[1, 2])]);
    assert_eq!(check(&block(), &in_one_tier).0, 6);
    let in_two_tiers = with(after_p5(), &[(433, &[3, 1])]);
    assert_eq!(check(&block(), &in_two_tiers).0, 6);

    // Slot 0, over the wrap, gets the lookup key of slot 6 and its entry
    // that key.
    let keys = [0, 1, 2].map(|n| key_from(6, n));
    let image = wide_store(&keys);
    assert_eq!(check(&wide_block(), &image).0, 0);
    let over_the_wrap = with(image.clone(), &[(96, &image[120..121]), (249, &keys[0])]);
    assert_eq!(check(&wide_block(), &over_the_wrap).0, 6);
}

/// Each image is refused for a found key, an absent one and a bad one alike.
#[test]
fn with_the_numbers_2_to_8_all_four_are_0() {
    let mut version = block();
    version[2] = 0;
    let mut fields = FIELDS;
    fields[1] = 3;
    let changes: [(u32, usize, &[u8]); 4] = [
        (4, 25, &[0xEF]),
        (5, 11, &[9]),
        (6, 100, &[0x11]),
        (7, 224, &[0]),
    ];
    let damaged = changes.map(|(number, at, bytes)| {
        let image = with(after_p5(), &[(at, bytes)]);
        (number, block(), image)
    });
    let mut cases = vec![(2, version, after_p5()), (3, block_of(fields), after_p5())];
    cases.extend(damaged);
    for (number, block, image) in cases {
        assert_eq!(check(&block, &image).0, number);
        for key in [&[1, 2][..], &[1, 3], &[4, 1], &[], &[7; 1025]] {
            refused(&block, &image, key, number);
        }
    }
    for image in [store_x(), after_p4(), after_p5()] {
        refused(&block(), &image, &[], 8);
        refused(&block(), &image, &[7; 1025], 8);
    }
}

/// Where a search ended is told by the lookup only.
#[test]
fn removals_and_pairs_answer_as_before() {
    for before in [after_p4(), after_p5()] {
        let mut image = before.clone();
        assert_eq!(remove(&block(), &mut image, &[1, 4]), 1);
        assert_eq!(image, before);
        assert_eq!(delay(&block(), &image, 1, 4), (1, 0));
        assert_eq!(delay(&block(), &image, 4, 1), (1, 0));
        assert_eq!(set_delay(&block(), &mut image, 4, 1, 5), 0);
        assert_eq!(delay(&block(), &image, 1, 4), (0, -5));
    }
}
