//! Stores that take the last entry out of a tier, and tiers that were empty
//! before the call. Every case is compared over every byte of the image.

use super::empty_tiers::{
    Change, FREED_AT_THE_END, FREED_BEFORE_TIER_3, FREED_IN_X, absent, chain_of_three, changed,
    counts, emptied_by_hand, one_in_each_extra_tier, removes,
};
use super::search_end::{drop_keys, put};
use super::worked_store::{
    BOTH_KINDS, after_p2, after_p5, after_p6, block, stores, stores_by, with,
};
use crate::{lookup, set_delay, store, store_tight};

const FOUR: [u8; 4] = [6; 4];
/// One byte too many for an entry of one chunk.
const FIVE: [u8; 5] = [6; 5];

/// Two chunks for one are a move by both kinds of store. It changes these
/// bytes, those of the entry, and no others.
#[track_caller]
fn moves(image: &[u8], key: [u8; 2], entry_at: usize, changes: &[Change]) -> Vec<u8> {
    let head = [2, key[0], key[1], 5];
    let entry: [(usize, &[u8]); 2] = [(entry_at, &head), (entry_at + 4, &FIVE)];
    let after = with(changed(image, changes), &entry);
    stores(image.to_vec(), key, &FIVE, 0, after.clone());
    after
}

/// In tier 1 after p5 without 02 01: entry count, slot 3, chunks 3 and 4.
const IN_TIER_1: [Change; 3] = [(72, 2, 3), (108, 0, 7), (224, 5, 29)];

#[test]
fn worked_a_replacement_that_an_earlier_tier_takes() {
    let mut image = after_p5();
    drop_keys(&block(), &mut image, &[[2, 1]]);
    let slots = [0, 1, 5, 0].map(u32::to_le_bytes);
    assert_eq!(image[96..112], *slots.as_flattened());
    assert_eq!(image[224], 5);
    let after = moves(&image, [1, 3], 256, &[&IN_TIER_1[..], &FREED_IN_X].concat());
    let slots = [0, 1, 5, 7].map(u32::to_le_bytes);
    assert_eq!(after[96..112], *slots.as_flattened());
    assert_eq!(after[296..312], [0; 16]);
    counts(&after, [3, 4, 1, 1]);
}

#[test]
fn worked_a_replacement_that_the_emptied_tier_takes() {
    let after = moves(&after_p5(), [1, 3], 432, &[(376, 1, 2), (424, 1, 3)]);
    assert_eq!((after[300], after[11], after[16], after[80]), (1, 0, 1, 2));
    counts(&after, [4, 5, 2, 0]);
}

#[test]
fn a_replacement_that_leaves_the_middle_of_a_chain() {
    let mut image = one_in_each_extra_tier();
    drop_keys(&block(), &mut image, &[[2, 1]]);
    let changes = [&IN_TIER_1[..], &FREED_BEFORE_TIER_3].concat();
    let after = moves(&image, [5, 1], 256, &changes);
    assert_eq!((after[368], after[388]), (1, 1));
    counts(&after, [4, 5, 2, 2]);
}

/// Tier 1 has no slot to spare; tier 2 has, and its chunks 0 and 1 are clear.
#[test]
fn a_replacement_that_moves_to_another_extra_tier() {
    let image = one_in_each_extra_tier();
    let taken = [(304, 0, 1), (376, 0, 3), (392, 1, 2), (424, 4, 7)];
    let changes = [&taken[..], &FREED_AT_THE_END].concat();
    let after = moves(&image, [6, 1], 432, &changes);
    counts(&after, [5, 6, 2, 2]);
}

/// The place is sought with the emptied tier where it is: it comes before
/// tier 3, whether that one has room or not, and stays before it.
#[test]
fn the_emptied_tier_takes_the_entry_in_its_place() {
    let mut image = one_in_each_extra_tier();
    let taken = [(300, 5, 1), (376, 0, 2), (424, 4, 3)];
    moves(&image, [5, 1], 432, &taken);
    put(&block(), &mut image, &[[1, 3], [4, 1], [7, 1], [8, 1]]);
    drop_keys(&block(), &mut image, &[[1, 3], [4, 1]]);
    assert_eq!((image[392], image[592]), (1, 3));
    let after = moves(&image, [5, 1], 432, &taken);
    assert_eq!((after[11], after[16], after[80], after[360]), (4, 2, 2, 3));
}

#[test]
fn other_entries_keep_a_tier_in_its_chain() {
    let mut image = after_p6();
    drop_keys(&block(), &mut image, &[[2, 1], [4, 1]]);
    let left = [(304, 5, 0), (392, 2, 1), (424, 5, 1)];
    let after = moves(&image, [5, 1], 256, &[IN_TIER_1, left].concat());
    counts(&after, [4, 5, 2, 0]);
}

/// No tier comes before it, so that it takes the new entry itself.
#[test]
fn a_main_tier_with_one_entry_that_is_replaced() {
    let mut chained = after_p5();
    drop_keys(&block(), &mut chained, &[[2, 1], [3, 1]]);
    for before in [after_p2(), chained] {
        moves(&before, [1, 2], 232, &[(76, 1, 2), (224, 1, 3)]);
        let after = with(before.clone(), &[(236, &FOUR)]);
        stores(before, [1, 2], &FOUR, 0, after);
    }
}

/// Tier 1 has no slot to spare and no tier is free, and yet the longest entry
/// has its place. A new key is answered 10 once tier 2 is full too.
#[test]
fn a_replacement_of_an_only_entry_is_not_answered_10() {
    for length in 5..=28 {
        for kind in BOTH_KINDS {
            let mut image = after_p5();
            assert_eq!(kind(&block(), &mut image, &[1, 3], &vec![6; length]), 0);
            let chunks = (4 + length as u64).div_ceil(8);
            counts(&image, [4, 3 + chunks, 2, 0]);
        }
    }
    stores(after_p5(), [1, 3], &[6; 29], 9, after_p5());
    stores(after_p6(), [6, 1], &FOUR, 10, after_p6());
}

/// Tier 1 has room for 05 01, but as many chunks stay where they are. The
/// tight store moves them, to chunk 1 and slot 3.
#[test]
fn on_the_spot_no_tier_is_emptied() {
    let mut image = one_in_each_extra_tier();
    drop_keys(&block(), &mut image, &[[2, 1]]);
    let on_the_spot = with(image.clone(), &[(452, &FOUR)]);
    stores_by(store, image.clone(), [5, 1], &FOUR, 0, on_the_spot);
    let taken = [(72, 2, 3), (76, 1, 3), (108, 0, 3), (224, 5, 7)];
    let moved = changed(&image, &[&taken[..], &FREED_BEFORE_TIER_3].concat());
    let moved = with(moved, &[(240, &[2, 5, 1, 4]), (244, &FOUR)]);
    counts(&moved, [4, 4, 2, 2]);
    stores_by(store_tight, image, [5, 1], &FOUR, 0, moved);
}

/// Tier 1 has no room: the emptied tier takes the entry back, in its own chunk
/// or in a lower one.
#[test]
fn a_tight_replacement_in_the_emptied_tier() {
    let after = with(after_p5(), &[(436, &FOUR)]);
    stores(after_p5(), [1, 3], &FOUR, 0, after);
    let image = one_in_each_extra_tier();
    let after = changed(&image, &[(300, 5, 1), (376, 0, 1), (424, 4, 1)]);
    let after = with(after, &[(432, &[2, 5, 1, 4]), (436, &FOUR)]);
    stores_by(store_tight, image, [5, 1], &FOUR, 0, after);
}

/// A set in the place of four bytes is on the spot, and one in the place of
/// five is not.
#[test]
fn a_set_of_a_delay_frees_the_tier_that_it_empties() {
    let mut image = after_p5();
    drop_keys(&block(), &mut image, &[[2, 1]]);
    let after = with(image.clone(), &[(436, &[9, 0, 0, 0])]);
    assert_eq!(set_delay(&block(), &mut image, 1, 3, 9), 0);
    assert_eq!(image, after);

    let mut image = after_p5();
    assert_eq!(store(&block(), &mut image, &[1, 3], &FIVE), 0);
    drop_keys(&block(), &mut image, &[[2, 1]]);
    let taken = [(72, 2, 3), (76, 1, 3), (108, 0, 3), (224, 5, 7)];
    let freed = [(376, 2, 0), (392, 1, 0), (424, 3, 0)];
    let after = changed(&image, &[&taken[..], &FREED_IN_X[..4], &freed].concat());
    let after = with(after, &[(240, &[2, 1, 3, 4, 9, 0, 0, 0])]);
    assert_eq!(set_delay(&block(), &mut image, 3, 1, -9), 0);
    assert_eq!(image, after);
}

/// Tier 2 is empty and chained. No call that comes by frees it.
#[test]
fn a_tier_that_was_empty_before_stays() {
    let mut image = emptied_by_hand(after_p5(), 2);
    counts(&image, [3, 3, 2, 0]);
    for key in [[1, 3], [4, 1], [7, 7]] {
        absent(&image, key);
        assert_eq!(lookup(&block(), &image, &key), (1, [0, 0, 2, 1]));
    }
    stores(image.clone(), [4, 1], &[6; 29], 9, image.clone());
    let after = with(image.clone(), &[(236, &FOUR)]);
    stores_by(store, image.clone(), [1, 2], &FOUR, 0, after.clone());
    let after = changed(&after, &[(100, 1, 3), (104, 3, 5), (108, 5, 1)]);
    stores_by(store_tight, image.clone(), [1, 2], &FOUR, 0, after);
    // Tier 1 has no slot to spare, then one more than it needs.
    stores(image.clone(), [1, 3], &[8; 4], 0, after_p5());
    let slots = [(104, 3, 5), (108, 5, 0)];
    let counters = [(72, 3, 2), (76, 3, 1), (224, 7, 5)];
    removes(&mut image, [2, 1], &[&slots[..], &counters].concat());
    let after = changed(&image, &[(72, 2, 3), (76, 1, 3), (108, 0, 3), (224, 5, 7)]);
    let after = with(after, &[(240, &[2, 7, 7, 4]), (244, &FOUR)]);
    stores(image, [7, 7], &FOUR, 0, after);
}

#[test]
fn an_empty_tier_after_a_main_tier_that_is_emptied_stays() {
    let mut image = emptied_by_hand(after_p5(), 2);
    drop_keys(&block(), &mut image, &[[3, 1], [2, 1]]);
    let emptied = [(72, 1, 0), (76, 1, 0), (100, 1, 0), (224, 1, 0)];
    removes(&mut image, [1, 2], &emptied);
    counts(&image, [0, 0, 2, 0]);
    absent(&image, [1, 2]);
}

/// Tier 2 is empty from the start. Tier 3 is emptied by a removal, by a store
/// that tier 2 takes, and by one that passes tier 2 over for tier 1.
#[test]
fn an_empty_tier_before_the_emptied_one_stays() {
    let before = emptied_by_hand(chain_of_three(), 2);
    counts(&before, [4, 4, 3, 1]);
    absent(&before, [5, 1]);
    let mut image = before.clone();
    removes(&mut image, [6, 1], &FREED_AT_THE_END);
    counts(&image, [3, 3, 2, 2]);

    let taken = [(300, 0, 1), (376, 0, 2), (392, 0, 1), (424, 0, 3)];
    let changes = [&taken[..], &FREED_AT_THE_END].concat();
    let after = moves(&before, [6, 1], 432, &changes);
    counts(&after, [4, 5, 2, 2]);

    let mut image = before.clone();
    drop_keys(&block(), &mut image, &[[2, 1]]);
    let changes = [&IN_TIER_1[..], &FREED_AT_THE_END].concat();
    let after = moves(&image, [6, 1], 256, &changes);
    counts(&after, [3, 4, 2, 2]);

    let on_the_spot = with(before.clone(), &[(636, &FOUR)]);
    stores_by(store, before, [6, 1], &FOUR, 0, on_the_spot);
}

/// Tier 3 is empty from the start, and tier 2 is emptied.
#[test]
fn an_empty_tier_after_the_emptied_one_stays() {
    let before = emptied_by_hand(one_in_each_extra_tier(), 3);
    counts(&before, [4, 4, 3, 1]);
    let mut image = before.clone();
    removes(&mut image, [5, 1], &FREED_BEFORE_TIER_3);
    counts(&image, [3, 3, 2, 2]);
    absent(&image, [5, 1]);

    let mut image = before;
    drop_keys(&block(), &mut image, &[[2, 1]]);
    let changes = [&IN_TIER_1[..], &FREED_BEFORE_TIER_3].concat();
    let after = moves(&image, [5, 1], 256, &changes);
    counts(&after, [3, 4, 2, 2]);
}
