//! The two kinds of store, on the spot and tight, against each other: the
//! same answers and the same map, wherever the entries stand.

use std::collections::BTreeMap;

use super::on_the_spot::one_tier;
use super::search_end::three_bulks;
use super::worked_store::{
    BOTH_KINDS, FIELDS, Store, after_p2, after_p3, after_p4, after_p5, after_p6, block, block_of,
    store_x, stores, with,
};
use crate::{check, entry, lookup, remove, store, store_tight};

pub type Records = BTreeMap<[u8; 2], Vec<u8>>;

/// Keys and records of an image with X's tiers, by the list. No key is there
/// twice.
#[track_caller]
pub fn records(image: &[u8]) -> Records {
    let mut records = Records::new();
    for n in 0.. {
        let (number, line) = entry(&block(), image, n);
        if number != 0 {
            assert_eq!(number, 1);
            break;
        }
        let [_, tier, _, chunk, _, _, length] = line.map(|number| number as usize);
        let at = 32 + 200 * tier + 8 * chunk;
        let record = image[at + 4..at + 4 + length].to_vec();
        let other = records.insert([image[at + 1], image[at + 2]], record);
        assert_eq!(other, None);
    }
    records
}

/// Of a record under a key of two bytes, in X.
fn chunks_for(length: usize) -> usize {
    (4 + length).div_ceil(8)
}

/// The records as they are looked up, and the check's entries and chunks.
#[track_caller]
pub fn reads_as(image: &[u8], map: &Records) {
    assert_eq!(&records(image), map);
    let chunks: usize = map.values().map(|record| chunks_for(record.len())).sum();
    let (number, counts) = check(&block(), image);
    assert_eq!(number, 0);
    assert_eq!(counts[..2], [map.len() as u64, chunks as u64]);
    for (key, record) in map {
        let (number, [at, length, _, _]) = lookup(&block(), image, key);
        assert_eq!((number, length), (0, record.len() as u64));
        assert_eq!(&image[at as usize..][..record.len()], record);
    }
}

/// Images with one tier and with two, with gaps in both and marks that lag.
pub fn images() -> Vec<Vec<u8>> {
    let mut gaps = after_p6();
    for key in [[1, 2], [1, 3]] {
        assert_eq!(remove(&block(), &mut gaps, &key), 0);
    }
    let lagging = with(after_p6(), &[(76, &[0]), (376, &[1])]);
    let mut images = vec![after_p2(), after_p3(), after_p4(), after_p5(), after_p6()];
    images.extend([store_x(), one_tier(), gaps, lagging, full_store()]);
    images
}

/// Every chunk of both tiers is taken, by entries of four, three and one,
/// and no tier is free.
fn full_store() -> Vec<u8> {
    let mut image = store_x();
    for (key, length) in FULL {
        assert_eq!(store(&block(), &mut image, &key, &vec![3; length]), 0);
    }
    assert_eq!((image[224], image[424]), (255, 255));
    image
}

const FULL: [([u8; 2], usize); 6] = [
    ([1, 2], 28),
    ([2, 1], 20),
    ([3, 1], 4),
    ([1, 3], 28),
    ([4, 1], 20),
    ([5, 1], 4),
];

/// Every entry of every image, by every record of as many chunks.
#[test]
fn a_replacement_of_the_same_size_leaves_the_same_map() {
    for before in images() {
        for (key, old) in records(&before) {
            let same = (0..=28).filter(|length| chunks_for(*length) == chunks_for(old.len()));
            for length in same {
                replaces(&before, key, vec![6; length]);
            }
        }
    }
}

#[track_caller]
fn replaces(before: &[u8], key: [u8; 2], record: Vec<u8>) {
    let mut map = records(before);
    map.insert(key, record.clone());
    for kind in BOTH_KINDS {
        let mut image = before.to_vec();
        assert_eq!(kind(&block(), &mut image, &key, &record), 0);
        reads_as(&image, &map);
    }
}

/// What the default store does not keep on the spot it moves as the other.
#[test]
fn a_replacement_of_another_size_is_the_same_store() {
    for before in images() {
        for (key, old) in records(&before) {
            let moved = (0..=30).filter(|length| chunks_for(*length) != chunks_for(old.len()));
            for length in moved {
                same_store(&before, &key, &vec![6; length]);
            }
        }
    }
}

#[test]
fn a_new_key_is_the_same_store() {
    for before in images() {
        for key in [&[7, 7][..], &[7], &[7, 7, 7, 7, 7]] {
            for length in 0..=30 {
                same_store(&before, key, &vec![6; length]);
            }
        }
    }
}

/// Byte for byte, and the number.
#[track_caller]
fn same_store(before: &[u8], key: &[u8], record: &[u8]) {
    let [first, second] = BOTH_KINDS.map(|kind| {
        let mut image = before.to_vec();
        (kind(&block(), &mut image, key, record), image)
    });
    assert_eq!(first, second);
}

#[test]
fn a_full_store_takes_replacements_that_are_no_larger() {
    for (key, longest) in FULL {
        for length in 0..=longest {
            replaces(&full_store(), key, vec![5; length]);
        }
    }
}

#[test]
fn a_full_store_takes_nothing_else() {
    stores(full_store(), [6, 1], &[], 10, full_store());
    for (key, longest) in FULL.into_iter().filter(|(_, longest)| *longest < 28) {
        stores(full_store(), key, &vec![5; longest + 1], 10, full_store());
    }
}

/// In the full store a replacement of as many chunks finds none but its own.
#[test]
fn in_a_full_store_the_tight_one_goes_back_to_its_chunks() {
    let value = [5; 20];
    let mut image = full_store();
    assert_eq!(store(&block(), &mut image, &[2, 1], &value), 0);
    assert_eq!(image, with(full_store(), &[(268, &value)]));
    let mut image = full_store();
    assert_eq!(store_tight(&block(), &mut image, &[2, 1], &value), 0);
    let changes: [(usize, &[u8]); 3] = [(104, &[15]), (108, &[9]), (268, &value)];
    assert_eq!(image, with(full_store(), &changes));
}

#[track_caller]
fn refuses(block: &[u8], image: &[u8], key: &[u8], record: &[u8], number: u32) {
    for kind in BOTH_KINDS {
        let mut after = image.to_vec();
        assert_eq!(kind(block, &mut after, key, record), number);
        assert!(after == image);
    }
}

/// Blocks and images with the number that they are refused with.
pub fn refused_inputs() -> Vec<(u32, Vec<u8>, Vec<u8>)> {
    let mut version = block();
    version[2] = 0;
    let mut fields = FIELDS;
    fields[1] = 3;
    let mut inputs = vec![
        (2, vec![], after_p5()),
        (2, version, after_p5()),
        (3, block_of(fields), after_p5()),
    ];
    for (number, at, byte) in [
        (4, 25, 0xEF),
        (5, 11, 9),
        (6, 100, 0x11),
        (7, 224, 0),
        (7, 76, 4),
    ] {
        inputs.push((number, block(), with(after_p5(), &[(at, &[byte])])));
    }
    inputs
}

/// Whether key and record are good or bad, there or not.
#[test]
fn both_kinds_refuse_with_2_to_7() {
    for (number, block, image) in refused_inputs() {
        for key in [&[1, 2][..], &[1, 3], &[4, 1], &[], &[7; 1025]] {
            for length in [0, 4, 28, 29, 65_536] {
                refuses(&block, &image, key, &vec![6; length], number);
            }
        }
    }
}

/// 8 comes before 9.
#[test]
fn both_kinds_refuse_with_8() {
    for image in images() {
        for length in [0, 4, 29, 65_536] {
            refuses(&block(), &image, &[], &vec![6; length], 8);
            refuses(&block(), &image, &[7; 1025], &vec![6; length], 8);
        }
    }
}

/// 9 comes before 10, and a key that is there makes no difference.
#[test]
fn both_kinds_refuse_with_9() {
    for image in images() {
        refuses(&block(), &image, &[7; 1024], &[], 9);
        for length in [29, 30, 127, 128, 65_535, 65_536] {
            for key in [[1, 2], [5, 1], [7, 7]] {
                refuses(&block(), &image, &key, &vec![6; length], 9);
            }
        }
    }
}

/// A generator of numbers, the same ones in each run.
pub struct Chance(pub u64);

impl Chance {
    pub fn below(&mut self, limit: u64) -> usize {
        self.0 = self.0.wrapping_mul(0x5851_F42D_4C95_7F2D).wrapping_add(1);
        ((self.0 >> 33) % limit) as usize
    }
}

/// An image and the map that it should read as.
pub struct History {
    pub image: Vec<u8>,
    pub map: Records,
    /// How many stores were answered with 10.
    pub full: usize,
}

impl History {
    pub fn remove(&mut self, key: [u8; 2]) {
        let there = self.map.remove(&key).is_some();
        let number = remove(&block(), &mut self.image, &key);
        assert_eq!(number, u32::from(!there));
    }

    /// 10 only where the key's own chunks do not suffice.
    fn store(&mut self, kind: Store, key: [u8; 2], record: Vec<u8>) {
        let before = self.image.clone();
        let number = kind(&block(), &mut self.image, &key, &record);
        if number == 0 {
            self.map.insert(key, record);
            return;
        }
        let own = self.map.get(&key).map_or(0, |old| chunks_for(old.len()));
        assert!(own < chunks_for(record.len()));
        assert_eq!(number, 10);
        assert_eq!(self.image, before);
        self.full += 1;
    }
}

/// Stores, of one kind or of both in turn, and removals.
fn run_history(kinds: &[Store], mut chance: Chance) {
    let mut history = History {
        image: three_bulks([3, 4, 2]),
        map: Records::new(),
        full: 0,
    };
    for _ in 0..200 {
        let key = [chance.below(14) as u8, 1];
        if chance.below(5) == 0 {
            history.remove(key);
        } else {
            let record = vec![chance.below(256) as u8; chance.below(29)];
            let kind = kinds[chance.below(kinds.len() as u64)];
            history.store(kind, key, record);
        }
        reads_as(&history.image, &history.map);
    }
    assert!(history.full > 0);
}

#[test]
fn histories_of_either_kind_and_of_both() {
    for seed in 1..=3 {
        run_history(&[store], Chance(seed));
        run_history(&[store_tight], Chance(seed));
        run_history(&BOTH_KINDS, Chance(seed));
    }
}
