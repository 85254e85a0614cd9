//! Low marks that lag: the check takes them, and an edit makes those of the
//! tiers exact in which it takes or frees chunks, and no others.

use super::worked_store::{
    BOTH_KINDS, FIELDS, after_p2, after_p4, after_p5, after_p6, block, block_of, store_x, stores,
    stores_by, with,
};
use crate::{check, remove, store, store_tight};

/// The low mark of tier 1, in the segment header, and that of tier 2.
const MARK: usize = 76;
const MARK_2: usize = 376;

fn marked_from(image: &[u8], at: usize, mark: u8) -> Vec<u8> {
    with(image.to_vec(), &[(at, &[mark])])
}

#[track_caller]
fn answers(image: &[u8], at: usize, marks: &[u8], number: u32) {
    for mark in marks {
        let image = marked_from(image, at, *mark);
        assert_eq!(check(&block(), &image).0, number, "mark {mark}");
    }
}

/// Two entries of four chunks each fill tier 1.
fn full_tier() -> Vec<u8> {
    let mut image = store_x();
    assert_eq!(store(&block(), &mut image, &[1, 2], &[0; 28]), 0);
    assert_eq!(store(&block(), &mut image, &[2, 1], &[0; 28]), 0);
    assert_eq!((image[224], image[MARK]), (255, 8));
    image
}

#[test]
fn a_mark_up_to_the_lowest_clear_chunk() {
    let lagging = marked_from(&after_p4(), MARK, 0);
    assert_eq!(check(&block(), &lagging), (0, [3, 3, 1, 1]));
    answers(&after_p4(), MARK, &[0, 1, 2, 3], 0);
    answers(&after_p4(), MARK, &[4, 8, 255], 7);
    answers(&after_p6(), MARK_2, &[0, 1, 2, 3], 0);
    answers(&after_p6(), MARK_2, &[4, 8, 255], 7);
}

#[test]
fn a_full_tier_has_the_exact_mark() {
    answers(&full_tier(), MARK, &[8], 0);
    answers(&full_tier(), MARK, &[0, 7, 9], 7);
    let mut image = after_p4();
    assert_eq!(store(&block(), &mut image, &[1, 3], &[0; 28]), 0);
    assert_eq!(store(&block(), &mut image, &[4, 1], &[0; 28]), 0);
    assert_eq!((image[424], image[MARK_2]), (255, 8));
    answers(&image, MARK_2, &[8], 0);
    answers(&image, MARK_2, &[0, 7, 9], 7);
}

/// Of seven chunks all are taken; the eighth bit is clear and no chunk.
#[test]
fn the_bits_behind_the_last_chunk_do_not_make_room_for_a_lag() {
    let mut fields = FIELDS;
    fields[10] = 7;
    let block = block_of(fields);
    let mut image = store_x();
    assert_eq!(store(&block, &mut image, &[1, 2], &[0; 28]), 0);
    assert_eq!(store(&block, &mut image, &[2, 1], &[0; 20]), 0);
    assert_eq!((image[224], image[MARK]), (127, 7));
    for (mark, number) in [(0, 7), (6, 7), (7, 0), (8, 7)] {
        assert_eq!(check(&block, &marked_from(&image, MARK, mark)).0, number);
    }
}

/// Four bytes in a header, eight in the counters; the next byte is another
/// field in each case.
#[test]
fn every_byte_of_a_mark_counts() {
    for at in MARK + 1..MARK + 4 {
        answers(&marked_from(&after_p5(), MARK, 0), at, &[1], 7);
    }
    for at in MARK_2 + 1..MARK_2 + 8 {
        answers(&marked_from(&after_p5(), MARK_2, 0), at, &[1], 7);
    }
}

/// A free tier's mark, and the one in a main tier's own counters.
#[test]
fn unread_marks() {
    answers(&after_p4(), MARK_2, &[0, 8, 9, 255], 0);
    answers(&after_p4(), 176, &[0, 8, 9, 255], 0);
}

#[test]
fn a_tier_without_an_empty_slot_to_spare_keeps_its_lag() {
    let before = marked_from(&after_p4(), MARK, 0);
    let after = marked_from(&after_p5(), MARK, 0);
    assert_eq!(after[MARK_2], 1);
    stores(before, [1, 3], &[8; 4], 0, after);
}

/// Tier 1 has only chunk 7 left, and two are needed.
#[test]
fn a_tier_without_a_long_enough_run_keeps_its_lag() {
    let mut image = store_x();
    assert_eq!(store(&block(), &mut image, &[1, 2], &[0; 28]), 0);
    assert_eq!(store(&block(), &mut image, &[2, 1], &[0; 20]), 0);
    assert_eq!((image[224], image[MARK]), (127, 7));
    image[MARK] = 0;
    assert_eq!(store(&block(), &mut image, &[3, 1], &[0; 5]), 0);
    assert_eq!((image[424], image[MARK], image[MARK_2]), (3, 0, 2));
}

#[test]
fn a_tier_that_is_only_searched_keeps_its_lag() {
    let mut image = marked_from(&after_p6(), MARK, 0);
    assert_eq!(remove(&block(), &mut image, &[4, 1]), 0);
    assert_eq!((image[424], image[MARK], image[MARK_2]), (5, 0, 1));
    image[MARK_2] = 0;
    assert_eq!(remove(&block(), &mut image, &[3, 1]), 0);
    assert_eq!((image[224], image[MARK], image[MARK_2]), (3, 2, 0));
}

/// The exact mark is neither the old one nor the freed chunk.
#[test]
fn removals_write_the_exact_mark() {
    for before in [after_p4(), marked_from(&after_p5(), MARK, 0)] {
        let slots: &[u8] = &[1, 0, 0, 0, 5, 0, 0, 0, 0, 0, 0, 0];
        let first = with(
            before.clone(),
            &[(72, &[2, 0, 0, 0, 1]), (100, slots), (224, &[5])],
        );
        let mut image = before;
        assert_eq!(remove(&block(), &mut image, &[2, 1]), 0);
        assert_eq!(image, first);
        image[MARK] = 0;
        assert_eq!(remove(&block(), &mut image, &[3, 1]), 0);
        let second = with(first, &[(72, &[1, 0, 0, 0, 1]), (104, &[0]), (224, &[1])]);
        assert_eq!(image, second);
    }
}

#[test]
fn a_store_writes_the_exact_mark() {
    let mut image = after_p2();
    image[MARK] = 0;
    assert_eq!(store(&block(), &mut image, &[2, 1], &[0; 4]), 0);
    assert_eq!(image[MARK], 2);
    image[MARK] = 1;
    assert_eq!(store(&block(), &mut image, &[3, 1], &[0; 28]), 0);
    assert_eq!((image[224], image[MARK]), (63, 6));
}

#[test]
fn a_store_that_fills_a_lagging_tier_writes_n() {
    let mut image = store_x();
    assert_eq!(store(&block(), &mut image, &[1, 2], &[0; 28]), 0);
    image[MARK] = 0;
    assert_eq!(store(&block(), &mut image, &[2, 1], &[0; 28]), 0);
    assert_eq!(image, full_tier());
}

/// The old entry leaves tier 2 for tier 1: both take or free chunks.
#[test]
fn a_replacement_across_tiers_writes_both_marks() {
    for kind in BOTH_KINDS {
        let mut image = after_p6();
        assert_eq!(remove(&block(), &mut image, &[2, 1]), 0);
        (image[MARK], image[MARK_2]) = (0, 0);
        assert_eq!(kind(&block(), &mut image, &[5, 1], &[0; 5]), 0);
        assert_eq!((image[224], image[424]), (29, 3));
        assert_eq!((image[MARK], image[MARK_2]), (1, 2));
    }
}

/// The very chunk that it frees is taken again.
#[test]
fn a_tight_replacement_in_its_own_chunks_writes_the_exact_mark() {
    let value = [0x20, 0, 0, 0];
    let before = marked_from(&after_p2(), MARK, 0);
    stores_by(
        store_tight,
        before,
        [1, 2],
        &value,
        0,
        with(after_p2(), &[(236, &value)]),
    );
}

/// The old chunks lie below the mark. As many chunks are moved by the tight
/// store only, fewer by both kinds.
#[test]
fn a_replacement_is_not_placed_from_the_mark_on() {
    let value = [0x20, 0, 0, 0];
    let slots = [3, 0, 0, 0, 5, 0, 0, 0, 1, 0, 0, 0];
    let after = with(after_p4(), &[(100, &slots), (236, &value)]);
    stores_by(store_tight, after_p4(), [1, 2], &value, 0, after);

    let mut image = store_x();
    assert_eq!(store(&block(), &mut image, &[1, 2], &[7; 5]), 0);
    assert_eq!((image[224], image[MARK]), (3, 2));
    // The fifth byte of the old record stays.
    let after = with(after_p2(), &[(236, &value), (240, &[7])]);
    stores(image, [1, 2], &value, 0, after);
}

#[test]
fn a_refused_edit_keeps_the_lag() {
    let image = with(after_p6(), &[(MARK, &[0]), (MARK_2, &[1])]);
    stores(image.clone(), [6, 1], &[0; 4], 10, image.clone());
    let mut after = image.clone();
    assert_eq!(remove(&block(), &mut after, &[6, 1]), 1);
    assert_eq!(after, image);
}
