//! Chains of well-filled tiers: the table of a short chain and that of a long
//! one, one pass and two, numbers from lookup keys and from hashes, and a pass
//! with more entries than its table takes.

use std::time::{Duration, Instant};

use super::chain_builder::{Key, Shape, Tiers, shape};
use super::keys_once::with_key;
use crate::{check, xxh64};

fn full(shape: Shape, tiers: usize) -> Tiers {
    shape.tiers(shape.keys(), tiers, shape.slots - 1)
}

/// Some entries of the first and the last tier, and of those next to them,
/// come again in another tier.
#[track_caller]
fn refused_with_a_key_twice(shape: Shape, tiers: &Tiers) {
    let last = tiers.len() - 1;
    for (one, other) in [(0, last), (last, 0), (0, 1), (last - 1, last)] {
        for place in [0, 1, shape.slots - 1] {
            let found = tiers[one].iter().find(|(own, _)| *own == place);
            let Some((_, key)) = found else {
                continue;
            };
            shape.checks(&with_key(shape, tiers, other, key.clone()), 6);
        }
    }
}

/// Up to 384 entries have the small table.
#[test]
fn tiers_of_64_slots() {
    for key_bits in [1, 6, 9, 14, 20, 40] {
        for count in [2, 6, 7, 8] {
            let shape = shape(64, key_bits);
            let tiers = full(shape, count);
            shape.checks(&tiers, 0);
            refused_with_a_key_twice(shape, &tiers);
        }
    }
}

/// Two tiers have one pass, which takes 14 bits; three have two passes, which
/// take 15.
#[test]
fn tiers_of_4096_slots() {
    for (key_bits, count) in [(13, 2), (14, 2), (14, 3), (15, 3), (1, 3), (32, 3)] {
        let shape = shape(4096, key_bits);
        let tiers = full(shape, count);
        shape.checks(&tiers, 0);
        refused_with_a_key_twice(shape, &tiers);
    }
}

/// Five tiers have four passes. A key's pass is in its low two bits.
#[test]
fn a_key_of_every_pass_twice() {
    let shape = shape(4096, 32);
    let tiers = full(shape, 5);
    shape.checks(&tiers, 0);
    for pass in 0..4 {
        let mut keys = tiers[1].iter().map(|(_, key)| key);
        let key = keys.find(|key| shape.lookup_key(key) % 4 == pass);
        shape.checks(&with_key(shape, &tiers, 4, key.unwrap().clone()), 6);
    }
}

/// A search for each key through the tiers before takes longer by far: half
/// a second, but for the second of these. With two segments the low bit of
/// all hashes is the same.
#[test]
fn a_full_chain_takes_little_time() {
    for (segments, key_bits, count) in [(1, 32, 16), (1, 32, 4), (1, 1, 4), (2, 1, 4)] {
        let shape = Shape {
            segments,
            slots: 4096,
            key_bits,
        };
        let mut chains = vec![full(shape, count)];
        chains.resize(segments, vec![vec![]]);
        let image = shape.image(&chains);
        let begun = Instant::now();
        assert_eq!(check(&shape.block(), &image).0, 0);
        assert!(begun.elapsed() < Duration::from_millis(300));
    }
}

/// All numbers are even, so that the first of two passes has all entries:
/// lookup keys of 32 bits, and hashes where the lookup keys have 14.
fn too_many_for_a_pass(key_bits: u32) -> (Shape, Tiers) {
    let shape = shape(4096, key_bits);
    let tiers = shape.tiers(keys_ending_in(shape, 0), 4, 3300);
    (shape, tiers)
}

fn keys_ending_in(shape: Shape, bit: u64) -> impl Iterator<Item = Key> {
    shape.keys().filter(move |key| xxh64(key) % 2 == bit)
}

#[test]
fn too_many_keys_for_a_pass_are_all_compared() {
    for key_bits in [14, 32] {
        let (shape, tiers) = too_many_for_a_pass(key_bits);
        shape.checks(&tiers, 0);
        refused_with_a_key_twice(shape, &tiers);
    }
}

/// In the last slots of the last tier the table is full: the second of a
/// key's slots is there, or both are.
#[test]
fn a_key_twice_behind_those_that_the_table_took() {
    for key_bits in [14, 32] {
        let (shape, tiers) = too_many_for_a_pass(key_bits);
        for tier in 0..4 {
            let mut keys = tiers[tier].iter().map(|(_, key)| key);
            let key = keys.find(|key| (3900..4000).contains(&shape.start(key)));
            let twice = with_key(shape, &tiers, 3, key.unwrap().clone());
            shape.checks(&twice, 6);
        }
    }
}

/// The other pass has two entries.
#[test]
fn a_key_twice_in_the_other_pass() {
    for key_bits in [14, 32] {
        let (shape, tiers) = too_many_for_a_pass(key_bits);
        let odd: Vec<Key> = keys_ending_in(shape, 1).take(2).collect();
        let tiers = with_key(shape, &tiers, 0, odd[0].clone());
        shape.checks(&with_key(shape, &tiers, 3, odd[1].clone()), 0);
        shape.checks(&with_key(shape, &tiers, 3, odd[0].clone()), 6);
    }
}
