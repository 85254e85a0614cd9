//! A key with two slots in a chain, in short chains: wherever the two are.

use super::chain_builder::{Key, Shape, Tiers, shape};
use super::worked_store::with;
use crate::check;

/// The lookup keys of the first two are too short for the table.
pub const KEY_BITS: [u32; 4] = [1, 8, 20, 40];

/// The first key with this start slot, and the second.
fn keys_from(shape: Shape, start: usize) -> [Key; 2] {
    let mut keys = shape.keys().filter(move |key| shape.start(key) == start);
    [keys.next().unwrap(), keys.next().unwrap()]
}

#[test]
fn twice_in_one_tier() {
    for key_bits in KEY_BITS {
        let shape = shape(8, key_bits);
        let [key, other] = keys_from(shape, 1);
        let kept = vec![(1, key.clone()), (2, other.clone())];
        shape.checks(&vec![kept.clone()], 0);
        shape.checks(&vec![vec![(1, key.clone()), (2, key.clone())]], 6);
        let apart = [kept, vec![(3, key)]].concat();
        shape.checks(&vec![apart], 6);
    }
}

#[test]
fn twice_over_the_wrap() {
    for key_bits in [8, 20, 40] {
        let shape = shape(8, key_bits);
        let [key, other] = keys_from(shape, 7);
        let kept = vec![(7, key.clone()), (0, other.clone())];
        shape.checks(&vec![kept.clone()], 0);
        shape.checks(&vec![vec![(7, key.clone()), (0, key.clone())]], 6);
        let apart = [kept, vec![(1, key)]].concat();
        shape.checks(&vec![apart], 6);
    }
}

/// One entry is named by two slots, so that its chunk is shared too.
#[test]
fn one_entry_in_two_slots() {
    let shape = shape(8, 20);
    let [key, _] = keys_from(shape, 3);
    let image = shape.image(&[vec![vec![(3, key)]]]);
    let at = shape.slot_at(1, 3);
    let slot = image[at..at + 4].to_vec();
    let image = with(image, &[(at + 4, &slot)]);
    assert_eq!(check(&shape.block(), &image).0, 6);
}

/// So many have one start slot that the walks take more than their steps.
/// No lookup key comes twice before.
#[test]
fn twice_after_long_walks() {
    let shape = shape(64, 20);
    let keys = shape.keys().filter(|key| shape.start(key) == 9);
    let mut keys: Vec<Key> = keys.take(62).collect();
    shape.checks(&vec![shape.placed(keys.clone())], 0);
    keys.push(keys[50].clone());
    shape.checks(&vec![shape.placed(keys)], 6);
}

#[test]
fn twice_in_two_tiers() {
    for key_bits in KEY_BITS {
        for count in [2, 5] {
            let shape = shape(16, key_bits);
            let tiers = shape.tiers(shape.keys(), count, 14);
            shape.checks(&tiers, 0);
            pairs(count).for_each(|pair| each_key_again(shape, &tiers, pair));
        }
    }
}

/// In whichever slot of the one tier it is.
#[track_caller]
fn each_key_again(shape: Shape, tiers: &Tiers, (one, other): (usize, usize)) {
    for (_, key) in &tiers[one] {
        shape.checks(&with_key(shape, tiers, other, key.clone()), 6);
    }
}

fn pairs(count: usize) -> impl Iterator<Item = (usize, usize)> {
    let pairs = (0..count).flat_map(move |one| (0..count).map(move |other| (one, other)));
    pairs.filter(|(one, other)| one != other)
}

/// One tier gets a key, in its start slot, for the last one that it had.
pub fn with_key(shape: Shape, tiers: &Tiers, tier: usize, key: Key) -> Tiers {
    let mut tiers = tiers.clone();
    tiers[tier].pop();
    let kept = tiers[tier].iter().map(|(_, key)| key.clone());
    tiers[tier] = shape.placed([key].into_iter().chain(kept));
    tiers
}

/// Before, between or behind the two.
#[test]
fn twice_in_a_chain_with_empty_tiers() {
    let shape = shape(8, 20);
    let [key, other] = keys_from(shape, 5);
    let (one, two) = (vec![(5, key)], vec![(5, other)]);
    for tiers in [
        vec![one.clone(), vec![], one.clone()],
        vec![vec![], one.clone(), one.clone()],
        vec![one.clone(), one.clone(), vec![]],
        vec![one.clone(), two.clone(), one.clone()],
    ] {
        shape.checks(&tiers, 6);
    }
    shape.checks(&vec![vec![], one, vec![], two], 0);
}

/// 6 comes before 7, whichever chain has the one and whichever tier the other.
#[test]
fn twice_and_a_wrong_count() {
    for key_bits in KEY_BITS {
        let shape = Shape {
            segments: 2,
            slots: 8,
            key_bits,
        };
        let once = [0, 1].map(|segment| shape.tiers(shape.keys_of(segment), 3, 4));
        answers_with_wrong_counts(shape, &once, [0, 7]);
        for segment in 0..2 {
            let mut twice = once.clone();
            let key = twice[segment][0][1].1.clone();
            twice[segment] = with_key(shape, &twice[segment], 2, key);
            answers_with_wrong_counts(shape, &twice, [6, 6]);
        }
    }
}

/// The numbers without a wrong count and with one.
#[track_caller]
fn answers_with_wrong_counts(shape: Shape, chains: &[Tiers], numbers: [u32; 2]) {
    let image = shape.image(chains);
    for tier in 1..=6 {
        let at = shape.count_at(tier);
        let wrong = with(image.clone(), &[(at, &[image[at] ^ 1])]);
        let answers = [&image, &wrong].map(|image| check(&shape.block(), image).0);
        assert_eq!(answers, numbers);
    }
}
