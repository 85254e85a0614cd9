//! Replacements on the spot: an entry that takes as many chunks as before
//! keeps its tier, slot and chunks, and only entry bytes are written. The
//! tight store moves it.

use super::search_end::{key_from, wide_block, wide_store};
use super::worked_store::{
    BOTH_KINDS, FIELDS, Store, after_p2, after_p3, after_p4, after_p5, after_p6, block, block_of,
    store_x, stores, stores_by, with,
};
use crate::{check, delay, lookup, remove, set_delay, store, store_tight};

/// The low mark of tier 1, in the segment header, and that of tier 2.
const MARK: usize = 76;
const MARK_2: usize = 376;

const VALUE: [u8; 4] = [0x20, 0, 0, 0];

/// The default store, which changes these bytes and no others.
#[track_caller]
fn writes(before: Vec<u8>, key: [u8; 2], value: &[u8], changes: &[(usize, &[u8])]) {
    let after = with(before.clone(), changes);
    stores_by(store, before, key, value, 0, after);
}

/// X without its bulk.
pub fn one_tier() -> Vec<u8> {
    let mut image = store_x();
    image.truncate(296);
    let size = 296u64.to_le_bytes();
    with(image, &[(8, &[0]), (11, &[0]), (25, &size)])
}

#[test]
fn worked_a_record_of_the_same_length() {
    writes(after_p4(), [1, 2], &VALUE, &[(236, &[0x20])]);
}

#[test]
fn worked_a_shorter_record() {
    let before = with(after_p4(), &[(236, &VALUE)]);
    writes(before, [1, 2], &[7], &[(235, &[1, 7])]);
    // From the readings: the same on the record of p2.
    let mut image = after_p4();
    assert_eq!(store(&block(), &mut image, &[1, 2], &[7]), 0);
    assert_eq!(image[232..240], [2, 1, 2, 1, 7, 0, 0, 0]);
}

#[test]
fn worked_a_tight_store() {
    let changes: [(usize, &[u8]); 4] = [(100, &[3]), (104, &[5]), (108, &[1]), (236, &[0x20])];
    let after = with(after_p4(), &changes);
    assert_eq!((after[224], after[MARK]), (7, 3));
    stores_by(store_tight, after_p4(), [1, 2], &VALUE, 0, after);
}

/// The free list after the replacement, after a store of three chunks and
/// after one of four.
#[test]
fn worked_a_later_store_differs_in_10() {
    for (kind, lists, last, mark) in [
        (store as Store, [4, 60, 60], 10, 0),
        (store_tight, [1, 15, 255], 0, 8),
    ] {
        let mut image = one_tier();
        assert_eq!(store(&block(), &mut image, &[1, 2], &[0; 12]), 0);
        assert_eq!(store(&block(), &mut image, &[2, 1], &[0; 4]), 0);
        assert_eq!(image[224], 7);
        assert_eq!(remove(&block(), &mut image, &[1, 2]), 0);
        assert_eq!(kind(&block(), &mut image, &[2, 1], &[1; 4]), 0);
        assert_eq!(image[224], lists[0]);
        assert_eq!(kind(&block(), &mut image, &[3, 1], &[0; 20]), 0);
        assert_eq!(image[224], lists[1]);
        assert_eq!(kind(&block(), &mut image, &[1, 3], &[0; 28]), last);
        assert_eq!((image[224], image[MARK]), (lists[2], mark));
    }
}

/// Five bytes need two chunks, as in p8; four bytes need one again.
#[test]
fn worked_more_chunks_and_fewer() {
    let record = [1, 2, 3, 4, 5];
    let longer: [(usize, &[u8]); 7] = [
        (MARK, &[0]),
        (100, &[3]),
        (104, &[5]),
        (108, &[7]),
        (224, &[30]),
        (256, &[2, 1, 2, 5]),
        (260, &record),
    ];
    let longer = with(after_p4(), &longer);
    stores(after_p4(), [1, 2], &record, 0, longer.clone());
    let changes: [(usize, &[u8]); 4] = [(MARK, &[3]), (108, &[1]), (224, &[7]), (236, &VALUE)];
    let shorter = with(longer.clone(), &changes);
    stores(longer, [1, 2], &VALUE, 0, shorter);
}

#[test]
fn worked_a_low_mark_that_lags() {
    let before = with(after_p4(), &[(MARK, &[0])]);
    writes(before, [1, 2], &VALUE, &[(236, &[0x20])]);
    let before = with(after_p2(), &[(MARK, &[0])]);
    let after = with(after_p2(), &[(236, &VALUE)]);
    assert_eq!((after[100], after[224], after[MARK]), (1, 1, 1));
    stores_by(store_tight, before, [1, 2], &VALUE, 0, after);
}

/// In the counters of an extra tier, eight bytes wide. Tier 1 is searched
/// and passed over: its mark lags on with both kinds.
#[test]
fn a_low_mark_that_lags_in_a_later_tier() {
    let before = with(after_p6(), &[(MARK, &[0]), (MARK_2, &[0])]);
    writes(before.clone(), [4, 1], &VALUE, &[(444, &VALUE)]);
    let moved: [(usize, &[u8]); 4] = [(304, &[5]), (308, &[3]), (MARK_2, &[3]), (444, &VALUE)];
    let after = with(before.clone(), &moved);
    stores_by(store_tight, before, [4, 1], &VALUE, 0, after);
}

/// 01 02 with a record of this length from chunk 1 on, between two other
/// entries, in chunks that held other bytes before.
fn between_others(length: usize) -> Vec<u8> {
    let mut image = with(store_x(), &[(232, &[0xEE; 64])]);
    for (key, length) in [([3, 1], 4), ([1, 2], length), ([2, 1], 4)] {
        assert_eq!(store(&block(), &mut image, &key, &vec![8; length]), 0);
    }
    image
}

/// Every length of the old record against every length of the new one.
#[test]
fn the_number_of_chunks_decides() {
    let chunks = |length: usize| (4 + length).div_ceil(8);
    for (old, new) in (0..29 * 29).map(|n| (n / 29, n % 29)) {
        let before = between_others(old);
        let record = vec![7; new];
        let mut after = with(before.clone(), &[(243, &[new as u8]), (244, &record)]);
        if chunks(old) != chunks(new) {
            after = before.clone();
            assert_eq!(store_tight(&block(), &mut after, &[1, 2], &record), 0);
        }
        stores_by(store, before, [1, 2], &record, 0, after);
    }
}

/// The old record's tail and the rest of the last chunk.
#[test]
fn what_lies_behind_the_entry_stays() {
    let mut image = with(store_x(), &[(232, &[0xEE; 64])]);
    assert_eq!(store(&block(), &mut image, &[1, 2], &[1, 2, 3]), 0);
    assert_eq!(image[232..241], [2, 1, 2, 3, 1, 2, 3, 0xEE, 0xEE]);
    assert_eq!(store(&block(), &mut image, &[1, 2], &[]), 0);
    assert_eq!(image[232..241], [2, 1, 2, 0, 1, 2, 3, 0xEE, 0xEE]);
    assert_eq!(store(&block(), &mut image, &[1, 2], &[4, 5]), 0);
    assert_eq!(image[232..241], [2, 1, 2, 2, 4, 5, 3, 0xEE, 0xEE]);
    assert_eq!(store(&block(), &mut image, &[1, 2], &[6; 4]), 0);
    assert_eq!(image[232..241], [2, 1, 2, 4, 6, 6, 6, 6, 0xEE]);
    assert_eq!(check(&block(), &image), (0, [1, 1, 1, 1]));
}

#[test]
fn the_record_that_is_there_changes_no_byte() {
    for (key, record) in [
        ([1, 2], [0x10, 0, 0, 0]),
        ([3, 1], [9; 4]),
        ([4, 1], [7; 4]),
    ] {
        writes(after_p6(), key, &record, &[]);
    }
}

/// Locks, reserved fields, gaps and a main tier's dead counters in X after
/// p6, from each first byte up to the second.
const UNREAD: [(usize, usize); 10] = [
    (0, 8),
    (33, 72),
    (88, 96),
    (112, 168),
    (176, 184),
    (192, 224),
    (225, 232),
    (312, 360),
    (396, 424),
    (425, 432),
];

/// With seven chunks to a tier the eighth bit is unread too.
pub fn with_junk() -> Vec<u8> {
    let mut image = with(after_p6(), &[(224, &[0x87]), (424, &[0x87])]);
    for (from, to) in UNREAD {
        image[from..to].fill(0xEE);
    }
    image
}

#[test]
fn bytes_that_are_not_read_stay() {
    let mut fields = FIELDS;
    fields[10] = 7;
    let block = block_of(fields);
    let mut image = with_junk();
    for (key, at) in [([1, 2], 236), ([3, 1], 252), ([1, 3], 436), ([5, 1], 452)] {
        let after = with(image.clone(), &[(at, &VALUE)]);
        assert_eq!(store(&block, &mut image, &key, &VALUE), 0);
        assert_eq!(image, after);
    }
}

/// Its chunks 2 to 4 would do, but chunk 1 is clear.
#[test]
fn fewer_chunks_move_although_they_would_fit() {
    let mut image = after_p3();
    assert_eq!(store(&block(), &mut image, &[3, 1], &[9; 20]), 0);
    assert_eq!(remove(&block(), &mut image, &[2, 1]), 0);
    assert_eq!((image[104], image[224]), (5, 29));
    let changes: [(usize, &[u8]); 4] = [
        (MARK, &[2]),
        (104, &[3]),
        (224, &[3]),
        (240, &[2, 3, 1, 4, 6, 6, 6, 6]),
    ];
    let after = with(image.clone(), &changes);
    stores(image, [3, 1], &[6; 4], 0, after);
}

/// The chunks behind the entry are clear, and so are two lower ones.
#[test]
fn more_chunks_move_although_there_is_room_behind() {
    let mut image = after_p4();
    assert_eq!(remove(&block(), &mut image, &[1, 2]), 0);
    assert_eq!(remove(&block(), &mut image, &[2, 1]), 0);
    assert_eq!((image[100], image[224]), (5, 4));
    let entry = [2, 3, 1, 5, 6, 6, 6, 6, 6];
    let changes: [(usize, &[u8]); 4] = [(MARK, &[2]), (100, &[1]), (224, &[3]), (232, &entry)];
    let after = with(image.clone(), &changes);
    stores(image, [3, 1], &[6; 5], 0, after);
}

/// X with this many chunks to a tier, of this size, all of which one entry
/// may take.
fn with_chunks(count: u32, size: u32) -> (Vec<u8>, Vec<u8>) {
    let mut fields = FIELDS;
    let tier = 136 + count * size;
    (fields[6], fields[10], fields[11], fields[16]) = (5, count, size, count);
    (fields[12], fields[15]) = (tier, tier);
    let end = u64::from(96 + 2 * tier);
    let mut image = store_x();
    image.resize(end as usize, 0xEE);
    // Tier 2 begins elsewhere than in X and is free: its next, slots and
    // free list are 0.
    let second = (end - u64::from(tier)) as usize;
    let changes: [(usize, &[u8]); 3] = [
        (25, &end.to_le_bytes()),
        (second, &[0; 72]),
        (second + 128, &[0; 8]),
    ];
    (block_of(fields), with(image, &changes))
}

/// 1 + 2 + 1 + 127 bytes become 1 + 2 + 2 + 128, and 16,388 become 16,390.
#[test]
fn the_records_offset_moves_with_its_lengths_size() {
    grows_by_one(64, &[5; 127], &[0x7F], &[0x80, 0x01]);
    grows_by_one(4096, &[5; 16_383], &[0xFF, 0x7F], &[0x80, 0x80, 0x01]);
}

/// A record with its length as it is written, then one that is a byte
/// longer, then the first again.
#[track_caller]
fn grows_by_one(chunk_size: u32, record: &[u8], short: &[u8], long: &[u8]) {
    let (block, mut image) = with_chunks(8, chunk_size);
    let longer = vec![6; record.len() + 1];
    let at = 235 + short.len();
    assert_eq!(store(&block, &mut image, &[1, 2], record), 0);
    found(&block, &image, at, record.len());

    let after = with(image.clone(), &[(235, long), (at + 1, &longer)]);
    assert_eq!(store(&block, &mut image, &[1, 2], &longer), 0);
    assert!(image == after);
    found(&block, &image, at + 1, longer.len());

    let after = with(after, &[(235, short), (at, record)]);
    assert_eq!(store(&block, &mut image, &[1, 2], record), 0);
    assert!(image == after);
    assert_eq!(image[at + record.len()..][..2], [6, 6]);
}

#[track_caller]
fn found(block: &[u8], image: &[u8], at: usize, length: usize) {
    let numbers = [at, length, 1, 1].map(|number| number as u64);
    assert_eq!(lookup(block, image, &[1, 2]), (0, numbers));
}

/// Of chunks of 66 bytes, 131 bytes take two and 133 three; without the
/// longer length, 132 would take two.
#[test]
fn the_lengths_size_counts_among_the_chunks() {
    let (block, mut image) = with_chunks(8, 66);
    assert_eq!(store(&block, &mut image, &[1, 2], &[5; 127]), 0);
    assert_eq!((image[224], image[MARK]), (3, 2));
    assert_eq!(store(&block, &mut image, &[1, 2], &[6; 128]), 0);
    assert_eq!((image[224], image[MARK]), (7, 3));
    assert_eq!(store(&block, &mut image, &[1, 2], &[7; 127]), 0);
    assert_eq!((image[224], image[MARK]), (3, 2));
}

#[test]
fn the_longest_record() {
    let (block, mut image) = with_chunks(17, 4096);
    for kind in BOTH_KINDS {
        assert_eq!(kind(&block, &mut image, &[1, 2], &[5; 65_535]), 0);
        let before = image.clone();
        assert_eq!(kind(&block, &mut image, &[1, 2], &[6; 65_536]), 9);
        assert!(image == before);
    }
    let after = with(image.clone(), &[(238, &[7; 65_535])]);
    assert_eq!(store(&block, &mut image, &[1, 2], &[7; 65_535]), 0);
    assert!(image == after);
}

/// Tier 1 has an empty slot and a clear chunk to spare.
#[test]
fn an_entry_of_a_later_tier_stays_there() {
    let mut before = after_p6();
    assert_eq!(remove(&block(), &mut before, &[2, 1]), 0);
    assert_eq!((before[72], before[MARK], before[224]), (2, 1, 5));
    writes(before.clone(), [5, 1], &VALUE, &[(452, &VALUE)]);
    let changes: [(usize, &[u8]); 9] = [
        (72, &[3, 0, 0, 0, 3]),
        (108, &[3]),
        (224, &[7]),
        (240, &[2, 5, 1, 4]),
        (244, &VALUE),
        (308, &[0]),
        (MARK_2, &[2]),
        (392, &[2]),
        (424, &[3]),
    ];
    let after = with(before.clone(), &changes);
    stores_by(store_tight, before, [5, 1], &VALUE, 0, after);
}

/// The only entry of its tier: the tight store moves it, and tier 2 is free.
#[test]
fn an_entry_alone_in_its_tier_stays_there() {
    let mut before = after_p5();
    assert_eq!(remove(&block(), &mut before, &[1, 2]), 0);
    writes(before.clone(), [1, 3], &VALUE, &[(436, &VALUE)]);
    assert_eq!(store_tight(&block(), &mut before, &[1, 3], &VALUE), 0);
    assert_eq!((before[224], before[424], before[392]), (7, 0, 0));
    assert_eq!(check(&block(), &before), (0, [3, 3, 1, 1]));
}

/// Three entries whose search starts in slot 6 take 6, 7 and 0; the tight
/// store empties 6, and the two behind it move up.
#[test]
fn a_slot_over_the_wrap_stays() {
    let keys = [0, 1, 2].map(|n| key_from(6, n));
    let mut image = wide_store(&keys);
    for (key, (at, slot)) in keys.iter().zip([(236, 6), (244, 7), (252, 0)]) {
        let after = with(image.clone(), &[(at as usize, &VALUE)]);
        assert_eq!(store(&wide_block(), &mut image, key, &VALUE), 0);
        assert_eq!(image, after);
        assert_eq!(lookup(&wide_block(), &image, key), (0, [at, 4, 1, slot]));
    }
    assert_eq!(store_tight(&wide_block(), &mut image, &keys[0], &VALUE), 0);
    let slots = keys.map(|key| lookup(&wide_block(), &image, &key).1[3]);
    assert_eq!(slots, [0, 6, 7]);
}

#[test]
fn a_set_delay_replaces_on_the_spot() {
    for (mark, a, b, given) in [(3, 1, 2, 32), (0, 1, 2, 32), (1, 2, 1, -32)] {
        let mut image = with(after_p4(), &[(MARK, &[mark])]);
        let after = with(image.clone(), &[(236, &[0x20])]);
        assert_eq!(set_delay(&block(), &mut image, a, b, given), 0);
        assert_eq!(image, after);
        assert_eq!(delay(&block(), &image, a, b), (0, given));
    }
    // In tier 2, although tier 1 has room.
    let mut image = after_p6();
    assert_eq!(remove(&block(), &mut image, &[2, 1]), 0);
    let after = with(image.clone(), &[(436, &VALUE)]);
    assert_eq!(set_delay(&block(), &mut image, 1, 3, 32), 0);
    assert_eq!(image, after);
}

/// A record that is no delay is replaced as any other.
#[test]
fn a_set_delay_moves_an_entry_of_two_chunks() {
    let mut image = after_p4();
    assert_eq!(store(&block(), &mut image, &[1, 2], &[5; 3]), 0);
    assert_eq!(set_delay(&block(), &mut image, 1, 2, 16), 0);
    assert_eq!(image, after_p4());
    assert_eq!(store(&block(), &mut image, &[1, 2], &[5; 5]), 0);
    assert_eq!((image[108], image[224]), (7, 30));
    assert_eq!(set_delay(&block(), &mut image, 1, 2, 16), 0);
    assert_eq!((image[108], image[224], image[MARK]), (1, 7, 3));
}
