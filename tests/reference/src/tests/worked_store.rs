//! The ten worked cases, each compared over every byte of the image.

use crate::{check, entry, lookup, remove, store, store_tight};

pub const FIELDS: [u32; 17] = [0, 1, 32, 4, 4, 1, 4, 64, 8, 0, 8, 8, 200, 0, 1, 200, 4];
const VALUE_1: [u8; 4] = [0x10, 0, 0, 0];
const VALUE_2: [u8; 4] = [0xF0, 0xFF, 0xFF, 0xFF];

pub fn block_of(fields: [u32; 17]) -> Vec<u8> {
    let mut block = vec![0, 69, 1];
    block.extend(fields.iter().flat_map(|field| field.to_be_bytes()));
    block
}

pub fn block() -> Vec<u8> {
    block_of(FIELDS)
}

pub fn with(mut image: Vec<u8>, changes: &[(usize, &[u8])]) -> Vec<u8> {
    for (at, bytes) in changes {
        image[*at..at + bytes.len()].copy_from_slice(bytes);
    }
    image
}

pub fn store_x() -> Vec<u8> {
    let size = 496u64.to_le_bytes();
    with(
        vec![0; 496],
        &[(8, &[1]), (11, &[2]), (21, &[64]), (25, &size)],
    )
}

pub fn after_p2() -> Vec<u8> {
    let entry = [2, 1, 2, 4, 0x10, 0, 0, 0];
    let counters: &[u8] = &[1, 0, 0, 0, 1];
    with(
        store_x(),
        &[(72, counters), (100, &[1]), (224, &[1]), (232, &entry)],
    )
}

pub fn after_p3() -> Vec<u8> {
    let entry = [2, 2, 1, 4, 0xF0, 0xFF, 0xFF, 0xFF];
    let counters: &[u8] = &[2, 0, 0, 0, 2];
    with(
        after_p2(),
        &[(72, counters), (104, &[3]), (224, &[3]), (240, &entry)],
    )
}

pub fn after_p4() -> Vec<u8> {
    let entry = [2, 3, 1, 4, 9, 9, 9, 9];
    let counters: &[u8] = &[3, 0, 0, 0, 3];
    with(
        after_p3(),
        &[(72, counters), (108, &[5]), (224, &[7]), (248, &entry)],
    )
}

/// Tier 2 has its slots at 296, its counters at 360, its free list at 424
/// and its chunks from 432 on.
pub fn after_p5() -> Vec<u8> {
    let entry = [2, 1, 3, 4, 8, 8, 8, 8];
    let changes: [(usize, &[u8]); 11] = [
        (11, &[0]),
        (16, &[1]),
        (80, &[2]),
        (300, &[1]),
        (360, &[0; 8]),
        (368, &[1]),
        (376, &[1]),
        (388, &[1]),
        (392, &[1]),
        (424, &[1]),
        (432, &entry),
    ];
    with(after_p4(), &changes)
}

pub fn after_p6() -> Vec<u8> {
    let entries = [2, 4, 1, 4, 7, 7, 7, 7, 2, 5, 1, 4, 6, 6, 6, 6];
    let changes: [(usize, &[u8]); 6] = [
        (304, &[3]),
        (308, &[5]),
        (376, &[3]),
        (392, &[3]),
        (424, &[7]),
        (440, &entries),
    ];
    with(after_p5(), &changes)
}

pub type Store = fn(&[u8], &mut [u8], &[u8], &[u8]) -> u32;

pub const BOTH_KINDS: [Store; 2] = [store, store_tight];

/// A store that both kinds do alike.
#[track_caller]
pub fn stores(before: Vec<u8>, key: [u8; 2], value: &[u8], number: u32, after: Vec<u8>) {
    for kind in BOTH_KINDS {
        stores_by(kind, before.clone(), key, value, number, after.clone());
    }
}

#[track_caller]
pub fn stores_by(
    kind: Store,
    before: Vec<u8>,
    key: [u8; 2],
    value: &[u8],
    number: u32,
    after: Vec<u8>,
) {
    let mut image = before;
    assert_eq!(kind(&block(), &mut image, &key, value), number);
    assert_eq!(image, after);
}

#[test]
fn p1_empty_store() {
    assert_eq!(check(&block(), &store_x()), (0, [0, 0, 1, 1]));
    assert_eq!(lookup(&block(), &store_x(), &[1, 2]), (1, [0, 0, 1, 1]));
}

#[test]
fn p2_first_entry() {
    stores(store_x(), [1, 2], &VALUE_1, 0, after_p2());
    assert_eq!(check(&block(), &after_p2()), (0, [1, 1, 1, 1]));
}

#[test]
fn p3_second_entry() {
    stores(after_p2(), [2, 1], &VALUE_2, 0, after_p3());
    assert_eq!(lookup(&block(), &after_p3(), &[1, 2]), (0, [236, 4, 1, 1]));
    assert_eq!(lookup(&block(), &after_p3(), &[2, 1]), (0, [244, 4, 1, 2]));
}

#[test]
fn p4_third_entry() {
    stores(after_p3(), [3, 1], &[9; 4], 0, after_p4());
}

#[test]
fn p5_takes_the_free_tier() {
    stores(after_p4(), [1, 3], &[8; 4], 0, after_p5());
    assert_eq!(check(&block(), &after_p5()), (0, [4, 4, 2, 0]));
}

#[test]
fn p6_until_full() {
    for kind in BOTH_KINDS {
        let mut image = after_p5();
        assert_eq!(kind(&block(), &mut image, &[4, 1], &[7; 4]), 0);
        assert_eq!(kind(&block(), &mut image, &[5, 1], &[6; 4]), 0);
        assert_eq!(image, after_p6());
    }
    stores(after_p6(), [6, 1], &[5; 4], 10, after_p6());
}

#[test]
fn p7_removal_closes_the_hole() {
    let mut image = after_p4();
    assert_eq!(remove(&block(), &mut image, &[1, 2]), 0);
    let slots = [3, 0, 0, 0, 5, 0, 0, 0, 0, 0, 0, 0];
    let counters: &[u8] = &[2, 0, 0, 0, 0];
    let after = with(after_p4(), &[(72, counters), (100, &slots), (224, &[6])]);
    assert_eq!(image, after);
}

#[test]
fn p8_replacement_by_a_longer_record() {
    let slots = [3, 0, 0, 0, 5, 0, 0, 0, 7, 0, 0, 0];
    let entry = [2, 1, 2, 5, 1, 2, 3, 4, 5];
    let counters: &[u8] = &[3, 0, 0, 0, 0];
    let changes: [(usize, &[u8]); 4] = [(72, counters), (100, &slots), (224, &[30]), (256, &entry)];
    stores(
        after_p4(),
        [1, 2],
        &[1, 2, 3, 4, 5],
        0,
        with(after_p4(), &changes),
    );
}

#[test]
fn p9_most_chunks() {
    let mut entry = vec![2, 1, 2, 28];
    entry.extend([3; 28]);
    let counters: &[u8] = &[1, 0, 0, 0, 4];
    let changes: [(usize, &[u8]); 4] = [(72, counters), (100, &[1]), (224, &[15]), (232, &entry)];
    stores(store_x(), [1, 2], &[3; 28], 0, with(store_x(), &changes));
    stores(store_x(), [1, 2], &[3; 29], 9, store_x());
}

#[test]
fn p10_refused_images() {
    let short = with(store_x(), &[(25, &495u64.to_le_bytes())]);
    assert_eq!(check(&block(), &short), (4, [0; 4]));
    let marked = with(store_x(), &[(224, &[1])]);
    assert_eq!(check(&block(), &marked), (7, [0; 4]));
}

#[test]
fn run_only_cases() {
    let long_key_length = with(after_p2(), &[(232, &[0x80, 0x00])]);
    assert_eq!(check(&block(), &long_key_length).0, 6);
    let long_value_length = with(after_p2(), &[(235, &[0x80, 0x00])]);
    assert_eq!(check(&block(), &long_value_length).0, 6);
    for version in [0, 2] {
        let mut block = block();
        block[2] = version;
        assert_eq!(check(&block, &store_x()).0, 2);
    }
    let mut fields = FIELDS;
    fields[1] = 3;
    assert_eq!(check(&block_of(fields), &store_x()).0, 3);
}

#[test]
fn list_of_p3() {
    assert_eq!(entry(&block(), &after_p3(), 0), (0, [0, 1, 1, 0, 1, 2, 4]));
    assert_eq!(entry(&block(), &after_p3(), 1), (0, [0, 1, 2, 1, 1, 2, 4]));
    assert_eq!(entry(&block(), &after_p3(), 2), (1, [0; 7]));
    assert_eq!(entry(&block(), &after_p3(), u64::MAX), (1, [0; 7]));
}

#[test]
fn offered_keys_and_values_out_of_range() {
    for key in [vec![], vec![7; 1025]] {
        assert_eq!(lookup(&block(), &store_x(), &key), (8, [0; 4]));
        assert_eq!(remove(&block(), &mut store_x(), &key), 8);
        assert_eq!(store(&block(), &mut store_x(), &key, &[0; 65_536]), 8);
    }
    let longest = [7; 1024];
    assert_eq!(lookup(&block(), &store_x(), &longest).0, 1);
    assert_eq!(store(&block(), &mut store_x(), &longest, &[]), 9);
    assert_eq!(store(&block(), &mut store_x(), &[7], &[0; 65_536]), 9);
}
