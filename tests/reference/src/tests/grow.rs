//! One more bulk. Every case is compared over every byte of the image: what
//! the new bulk's bytes were before must not be seen where a rule reads them,
//! and must stay where none does.

use super::on_the_spot::one_tier;
use super::search_end::three_bulks;
use super::store_kinds::refused_inputs;
use super::worked_store::{FIELDS, after_p4, after_p6, block, block_of, store_x, stores, with};
use crate::{check, grow, lookup, store};

/// With this many bytes more at the end.
pub fn longer(mut image: Vec<u8>, more: usize, byte: u8) -> Vec<u8> {
    image.resize(image.len() + more, byte);
    image
}

/// A call that answers 0 and changes these bytes and no others.
#[track_caller]
fn grows(block: &[u8], image: &mut [u8], changes: &[(usize, &[u8])]) {
    let after = with(image.to_vec(), changes);
    assert_eq!(grow(block, image), 0);
    assert!(image == after);
}

#[track_caller]
pub fn refuses(block: &[u8], image: &[u8], number: u32) {
    let mut after = image.to_vec();
    assert_eq!(grow(block, &mut after), number);
    assert!(after == image);
}

/// The call on an image with X's tiers, one to a bulk: the index of the new
/// tier says where it is and how many bulks there are.
#[track_caller]
fn grows_by_tier(image: &mut [u8], tier: u8, next: u8) {
    grows_with_list(&block(), image, tier, next, &[0]);
}

/// The same with the first bytes of the new tier's free list.
#[track_caller]
fn grows_with_list(block: &[u8], image: &mut [u8], tier: u8, next: u8, list: &[u8]) {
    let start = 200 * tier as usize - 104;
    let size = (start as u64 + 200).to_le_bytes();
    let changes: [(usize, &[u8]); 7] = [
        (8, &[tier - 1]),
        (11, &[tier]),
        (25, &size),
        (start, &[0; 16]),
        (start + 64, &[next, 0, 0, 0, 0, 0, 0, 0]),
        (start + 72, &[0; 28]),
        (start + 128, list),
    ];
    grows(block, image, &changes);
}

#[test]
fn worked_no_room() {
    refuses(&block(), &store_x(), 13);
    for more in 1..=199 {
        refuses(&block(), &longer(store_x(), more, 0xFF), 13);
        refuses(&block(), &longer(store_x(), more, 0), 13);
    }
}

/// Tier 3 has its slots at 496, its counters at 560 and its free list at 624.
#[test]
fn worked_one_more_bulk() {
    let mut image = longer(store_x(), 200, 0xFF);
    let size = 696u64.to_le_bytes();
    let changes: [(usize, &[u8]); 7] = [
        (8, &[2]),
        (11, &[3]),
        (25, &size),
        (496, &[0; 16]),
        (560, &[2, 0, 0, 0, 0, 0, 0, 0]),
        (568, &[0; 28]),
        (624, &[0]),
    ];
    grows(&block(), &mut image, &changes);
    assert_eq!(image[16..21], [0; 5]);
    assert_eq!(image[33..496], store_x()[33..]);
    for (from, to) in [(512, 560), (596, 624), (625, 696)] {
        assert!(image[from..to].iter().all(|byte| *byte == 0xFF));
    }
    assert_eq!(check(&block(), &image), (0, [0, 0, 1, 2]));
    refuses(&block(), &image, 13);
}

/// The newest tier comes first in the free chain: 4, 3, 2. Of the bytes
/// after the second bulk, 199 are no room for a third, and they stay.
#[test]
fn one_bulk_after_another() {
    let mut image = longer(store_x(), 599, 0xEE);
    grows_by_tier(&mut image, 3, 2);
    grows_by_tier(&mut image, 4, 3);
    assert_eq!(check(&block(), &image), (0, [0, 0, 1, 3]));
    refuses(&block(), &image, 13);
}

/// X has one bulk of zeros, and so it is made from the store without any.
#[test]
fn the_first_bulk() {
    refuses(&block(), &one_tier(), 13);
    let mut image = longer(one_tier(), 200, 0);
    assert_eq!(grow(&block(), &mut image), 0);
    assert_eq!(image, store_x());
}

/// Of the bulk's 616 bytes 5 come before its three tiers and 11 after them.
fn three_tiers_in_a_bulk() -> Vec<u8> {
    let mut fields = FIELDS;
    (fields[13], fields[14], fields[15]) = (5, 3, 616);
    block_of(fields)
}

/// A first bulk: tiers 2, 3 and 4 begin at 301, 501 and 701.
#[test]
fn a_bulk_of_several_tiers() {
    let block = three_tiers_in_a_bulk();
    let mut image = longer(one_tier(), 616, 0xFF);
    let size = 912u64.to_le_bytes();
    let changes: [(usize, &[u8]); 15] = [
        (8, &[1]),
        (11, &[2]),
        (25, &size),
        (301, &[0; 16]),
        (365, &[3, 0, 0, 0, 0, 0, 0, 0]),
        (373, &[0; 28]),
        (429, &[0]),
        (501, &[0; 16]),
        (565, &[4, 0, 0, 0, 0, 0, 0, 0]),
        (573, &[0; 28]),
        (629, &[0]),
        (701, &[0; 16]),
        (765, &[0; 8]),
        (773, &[0; 28]),
        (829, &[0]),
    ];
    grows(&block, &mut image, &changes);
    assert_eq!(image[296..301], [0xFF; 5]);
    assert_eq!(image[901..912], [0xFF; 11]);
    assert_eq!(check(&block, &image), (0, [0, 0, 1, 3]));
    second_bulk_of_several_tiers(&block, image);
}

/// Tiers 5, 6 and 7 begin at 917, 1117 and 1317; 7 leads to the old head.
#[track_caller]
fn second_bulk_of_several_tiers(block: &[u8], image: Vec<u8>) {
    let mut image = longer(image, 616, 0xAA);
    let size = 1528u64.to_le_bytes();
    let changes: [(usize, &[u8]); 15] = [
        (8, &[2]),
        (11, &[5]),
        (25, &size),
        (917, &[0; 16]),
        (981, &[6, 0, 0, 0, 0, 0, 0, 0]),
        (989, &[0; 28]),
        (1045, &[0]),
        (1117, &[0; 16]),
        (1181, &[7, 0, 0, 0, 0, 0, 0, 0]),
        (1189, &[0; 28]),
        (1245, &[0]),
        (1317, &[0; 16]),
        (1381, &[2, 0, 0, 0, 0, 0, 0, 0]),
        (1389, &[0; 28]),
        (1445, &[0]),
    ];
    grows(block, &mut image, &changes);
    assert_eq!(check(block, &image), (0, [0, 0, 1, 6]));
}

/// From 605 bytes on the tiers would fit, but not what comes after them.
#[test]
fn the_whole_bulk_must_fit() {
    let block = three_tiers_in_a_bulk();
    for more in 0..616 {
        refuses(&block, &longer(one_tier(), more, 0xFF), 13);
    }
    assert_eq!(grow(&block, &mut longer(one_tier(), 616, 0xFF)), 0);
}

/// The free chain is 3, 4, 2, and of these tiers every byte that is not read
/// holds something. The new tier comes before them, and stores take the
/// tiers in that order.
#[test]
fn free_tiers_keep_their_order_and_their_bytes() {
    let mut image = three_bulks([3, 4, 2]);
    for start in [296, 496, 696] {
        for (from, to) in [(16, 64), (72, 128), (129, 200)] {
            image[start + from..start + to].fill(0xEE);
        }
    }
    let mut image = longer(image, 200, 0xEE);
    grows_by_tier(&mut image, 5, 3);
    assert_eq!(check(&block(), &image), (0, [0, 0, 1, 4]));
    let tiers = [1, 1, 1, 5, 5, 5, 3, 3, 3, 4, 4, 4, 2, 2, 2];
    for (n, tier) in (0..).zip(tiers) {
        assert_eq!(store(&block(), &mut image, &[n, 1], &[9; 4]), 0);
        assert_eq!(lookup(&block(), &image, &[n, 1]).1[2], tier);
    }
    assert_eq!(store(&block(), &mut image, &[15, 1], &[9; 4]), 10);
}

/// The chain is 1, 3 and the free chain 4, 2.
#[test]
fn with_some_extra_tiers_in_use() {
    let mut image = longer(three_bulks([3, 4, 2]), 200, 0xEE);
    for n in 0..5 {
        assert_eq!(store(&block(), &mut image, &[n, 1], &[9; 4]), 0);
    }
    assert_eq!((image[11], image[16], image[80]), (4, 1, 3));
    grows_by_tier(&mut image, 5, 4);
    assert_eq!(check(&block(), &image), (0, [5, 5, 2, 3]));
}

/// The free chain is empty. After the call the store that was refused is
/// done, in the new tier.
#[test]
fn a_full_store_takes_one_more_entry() {
    let mut image = longer(after_p6(), 200, 0xFF);
    stores(image.clone(), [6, 1], &[5; 4], 10, image.clone());
    grows_by_tier(&mut image, 3, 0);
    assert_eq!(check(&block(), &image), (0, [6, 6, 2, 1]));
    let changes: [(usize, &[u8]); 10] = [
        (11, &[0]),
        (16, &[2]),
        (360, &[3]),
        (500, &[1]),
        (568, &[2]),
        (576, &[1]),
        (588, &[2]),
        (592, &[1]),
        (624, &[1]),
        (632, &[2, 6, 1, 4, 5, 5, 5, 5]),
    ];
    let after = with(image.clone(), &changes);
    stores(image, [6, 1], &[5; 4], 0, after.clone());
    assert_eq!(check(&block(), &after), (0, [7, 7, 3, 0]));
    refuses(&block(), &after, 13);
}

/// The lagging marks of both tiers are left as they are.
#[test]
fn low_marks_keep_their_lag() {
    let before = with(after_p6(), &[(76, &[0]), (376, &[1])]);
    grows_by_tier(&mut longer(before, 200, 0xFF), 3, 0);
}

/// X with up to eight chunks to a tier: what byte 624 was and what is left.
#[test]
fn bits_behind_the_last_chunk_stay() {
    for (chunks, before, left) in [
        (8, 0xFF, 0x00),
        (7, 0xFF, 0x80),
        (7, 0x7F, 0x00),
        (7, 0x80, 0x80),
        (5, 0xFF, 0xE0),
        (5, 0x55, 0x40),
        (4, 0xAA, 0xA0),
        (4, 0x0F, 0x00),
    ] {
        let mut fields = FIELDS;
        fields[10] = chunks;
        let mut image = longer(store_x(), 200, before);
        grows_with_list(&block_of(fields), &mut image, 3, 2, &[left]);
        assert_eq!(check(&block_of(fields), &image), (0, [0, 0, 1, 2]));
    }
}

/// Twelve chunks of five bytes: one byte of the list whole, the next by half.
#[test]
fn a_free_list_of_two_bytes() {
    let mut fields = FIELDS;
    (fields[10], fields[11]) = (12, 5);
    let mut image = longer(store_x(), 200, 0xFF);
    grows_with_list(&block_of(fields), &mut image, 3, 2, &[0x00, 0xF0]);
    assert_eq!(image[626], 0xFF);
    assert_eq!(check(&block_of(fields), &image), (0, [0, 0, 1, 2]));
}

/// The bulk ends where the longest image ends. A byte more is no image.
#[test]
fn up_to_the_longest_image() {
    const LONGEST: usize = 16_777_216;
    let mut fields = FIELDS;
    fields[15] = LONGEST as u32 - 296;
    let block = block_of(fields);
    let mut image = longer(one_tier(), LONGEST - 296, 0xFF);
    refuses(&block, &image[..LONGEST - 1], 13);
    refuses(&block, &longer(image.clone(), 1, 0xFF), 4);
    let size = (LONGEST as u64).to_le_bytes();
    let changes: [(usize, &[u8]); 7] = [
        (8, &[1]),
        (11, &[2]),
        (25, &size),
        (296, &[0; 16]),
        (360, &[0; 8]),
        (368, &[0; 28]),
        (424, &[0]),
    ];
    let before = image.clone();
    grows(&block, &mut image, &changes);
    assert_eq!(check(&block, &image), (0, [0, 0, 1, 1]));
    fields[15] = LONGEST as u32;
    refuses(&block_of(fields), &before, 13);
}

/// 13 is not given for a refused image, whether it has room or not.
#[test]
fn the_images_numbers_come_first() {
    for (number, block, image) in refused_inputs() {
        for more in [0, 199, 200, 1000] {
            refuses(&block, &longer(image.clone(), more, 0xFF), number);
        }
    }
    // A free tier with a full slot, with a marked chunk, and one that leads
    // to itself.
    for (number, at, byte) in [(7, 300, 1), (7, 424, 1), (5, 360, 2)] {
        let image = with(after_p4(), &[(at, &[byte])]);
        refuses(&block(), &image, number);
        refuses(&block(), &longer(image, 200, 0), number);
    }
    refuses(&block(), &[], 4);
    refuses(&[], &[], 2);
}
