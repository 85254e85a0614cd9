//! What the walk tests, what it passes over, and in which order.

use super::quick::{BROKEN, answers, built_to_p3, built_to_p5, built_to_p6};
use super::worked_store::{FIELDS, block, block_of, store_x, with};
use crate::{check, lookup, quick_lookup, store};

#[test]
fn settings_frame_and_key_come_in_this_order() {
    let bad_frame = with(built_to_p3(), &[(25, &495u64.to_le_bytes())]);
    let mut bad_fields = FIELDS;
    bad_fields[1] = 3;
    for key in [&[][..], &[1, 2], &[7; 1025]] {
        for image in [&bad_frame, &vec![]] {
            let of = |block: &[u8]| quick_lookup(block, image, key);
            assert_eq!(of(&block()[..70]), (2, [0; 4]));
            assert_eq!(of(&block_of(bad_fields)), (3, [0; 4]));
            assert_eq!(of(&block()), (4, [0; 4]));
        }
    }
}

#[test]
fn a_bad_key_comes_before_the_walk() {
    let broken = with(built_to_p3(), &[(100, &[0x11])]);
    for key in [&[][..], &[7; 1025]] {
        answers(&built_to_p3(), key, (8, [0; 4]));
        answers(&broken, key, (8, [0; 4]));
    }
    answers(&broken, &[7; 1024], BROKEN);
}

/// Before the keys are compared.
#[test]
fn an_entry_of_another_key_is_tested() {
    for (at, bytes) in [
        (232, &[0x82, 0x00][..]),   // key length not shortest
        (232, &[0]),                // no key
        (232, &[64]),               // a key past the chunks
        (232, &[63]),               // a key up to their end, and no value length
        (232, &[0x81, 0x08]),       // 1,025
        (235, &[0x80, 0x00]),       // a value length not shortest
        (235, &[0x80, 0x80, 0x04]), // 65,536
        (235, &[0x80, 0x80, 0x80, 0x00]),
        (235, &[61]), // a value past the chunks
    ] {
        let image = with(built_to_p3(), &[(at, bytes)]);
        for key in [[1, 2], [2, 1], [3, 1]] {
            answers(&image, &key, BROKEN);
        }
    }
}

/// Neither an entry in a later tier nor a next.
#[test]
fn what_stands_behind_the_find_is_not_met() {
    let later = with(built_to_p6(), &[(440, &[0])]);
    answers(&later, &[1, 3], (0, [436, 4, 2, 1]));
    answers(&later, &[4, 1], BROKEN);
    answers(&later, &[5, 1], BROKEN);
    let next = with(built_to_p5(), &[(360, &[9])]);
    answers(&next, &[3, 1], (0, [252, 4, 1, 3]));
    answers(&next, &[1, 3], (0, [436, 4, 2, 1]));
    answers(&next, &[4, 1], BROKEN);
}

/// None of those above K + V; but all of the V belong to the chunk.
#[test]
fn bits_above_the_chunk_are_not_tested() {
    for bit in 5..32 {
        let slot = (1u32 | 1 << bit).to_le_bytes();
        let image = with(built_to_p3(), &[(100, &slot)]);
        assert_eq!(check(&block(), &image).0, 6);
        answers(&image, &[1, 2], (0, [236, 4, 1, 1]));
    }
    for chunk in 8..16 {
        let image = with(built_to_p3(), &[(100, &[1 | chunk << 1])]);
        answers(&image, &[1, 2], BROKEN);
    }
}

/// Bits, counts, low marks, previous, order, segment, free chain and a second
/// slot of the key.
#[test]
fn what_the_walk_does_not_test() {
    let untested: [(usize, &[u8]); 9] = [
        (11, &[9]),
        (16, &[9]),
        (72, &[9]),
        (76, &[9]),
        (160, &[9]),
        (224, &[0xFF]),
        (368, &[9]),
        (384, &[9; 12]),
        (304, &[1]),
    ];
    for damage in untested {
        let image = with(built_to_p5(), &[damage]);
        answers(&image, &[1, 2], (0, [236, 4, 1, 1]));
        answers(&image, &[1, 3], (0, [436, 4, 2, 1]));
    }
}

/// However broken its entry is.
#[test]
fn a_slot_with_another_lookup_key_is_passed_over() {
    let mut fields = FIELDS;
    (fields[5], fields[6]) = (20, 4);
    let block = block_of(fields);
    let mut image = store_x();
    assert_eq!(store(&block, &mut image, &[1, 2], &[5]), 0);
    let (_, [_, _, _, place]) = lookup(&block, &image, &[1, 2]);
    let at = 96 + 4 * place as usize;
    let moved = with(
        image.clone(),
        &[(at + 1, &[image[at + 1] ^ 1]), (232, &[0])],
    );
    let answer = quick_lookup(&block, &moved, &[1, 2]);
    assert_eq!(answer, (1, [0, 0, 1, (place + 1) % 4]));
}

#[test]
fn a_next_is_an_extra_tier_in_all_its_bytes() {
    for at in 81..88 {
        let image = with(built_to_p5(), &[(at, &[1])]);
        answers(&image, &[1, 2], (0, [236, 4, 1, 1]));
        answers(&image, &[1, 3], BROKEN);
        let image = with(built_to_p3(), &[(at, &[1])]);
        answers(&image, &[1, 3], BROKEN);
    }
    // A free tier with an entry.
    let slots = [0, 0, 0, 0, 1];
    let entry = [2, 3, 1, 0];
    let image = with(built_to_p3(), &[(80, &[2]), (296, &slots), (432, &entry)]);
    assert_eq!(check(&block(), &image).0, 5);
    answers(&image, &[3, 1], (0, [436, 0, 2, 1]));
}

/// Two extra tiers that lead to one another.
#[test]
fn a_chain_in_a_circle_ends() {
    let mut image = store_x();
    image.resize(696, 0);
    let size = 696u64.to_le_bytes();
    let links: [(usize, &[u8]); 5] = [(8, &[2]), (25, &size), (80, &[2]), (360, &[3]), (560, &[2])];
    let circle = with(image, &links);
    answers(&circle, &[1, 2], BROKEN);
    // As many tiers as there are, in any order, are no circle.
    let whole = with(circle.clone(), &[(80, &[3]), (360, &[0])]);
    answers(&whole, &[1, 2], (1, [0, 0, 2, 1]));
    let entry = [2, 1, 2, 0];
    let found = with(circle, &[(500, &[1]), (632, &entry)]);
    answers(&found, &[1, 2], (0, [636, 0, 3, 1]));
}

/// It does not go on to the next tier, though the key stands there.
#[test]
fn without_an_empty_slot_a_tier_ends_the_walk() {
    let image = with(built_to_p5(), &[(96, &[2])]);
    answers(&image, &[3, 1], (0, [252, 4, 1, 3]));
    answers(&image, &[1, 3], BROKEN);
    // Found in the last of the C slots.
    let last = with(
        built_to_p3(),
        &[(96, &[5]), (108, &[2]), (248, &[2, 3, 1, 0])],
    );
    answers(&last, &[3, 1], (0, [252, 0, 1, 0]));
    answers(&last, &[4, 1], BROKEN);
}

/// The empty record at the end of the chunks, of the tier and of the image.
#[test]
fn an_empty_record_has_its_offset() {
    let entry = [6, 6, 5, 4, 3, 2, 1, 0];
    let changes: [(usize, &[u8]); 3] = [(80, &[2]), (300, &[15]), (488, &entry)];
    let image = with(built_to_p3(), &changes);
    answers(&image, &entry[1..7], (0, [496, 0, 2, 1]));
}
