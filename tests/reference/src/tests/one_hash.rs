//! Different keys with one hash, and so with one lookup key, whatever its
//! bits. They are easily made.

use super::chain_builder::{Key, shape};
use super::keys_once::{KEY_BITS, with_key};
use crate::xxh64;

const PRIME_1: u64 = 0x9E37_79B1_85EB_CA87;
const PRIME_2: u64 = 0xC2B2_AE3D_27D4_EB4F;
const PRIME_4: u64 = 0x85EB_CA77_C2B2_AE63;
const PRIME_5: u64 = 0x27D4_EB2F_1656_67C5;

/// Each has two words. The first may be any, and the second is chosen so that
/// what the hash makes of it cancels what came of the first.
fn keys_of_one_hash(count: u64) -> Vec<Key> {
    let key = |first: u64| {
        let second = unmixed(after(first));
        [first.to_le_bytes(), second.to_le_bytes()].concat()
    };
    (0..count).map(key).collect()
}

/// The hash of a key of 16 bytes after its first word.
fn after(word: u64) -> u64 {
    ((PRIME_5 + 16) ^ mixed(word))
        .rotate_left(27)
        .wrapping_mul(PRIME_1)
        .wrapping_add(PRIME_4)
}

fn mixed(word: u64) -> u64 {
    word.wrapping_mul(PRIME_2)
        .rotate_left(31)
        .wrapping_mul(PRIME_1)
}

fn unmixed(word: u64) -> u64 {
    word.wrapping_mul(inverse(PRIME_1))
        .rotate_right(31)
        .wrapping_mul(inverse(PRIME_2))
}

/// Each step doubles the number of low bits in which the product is 1.
fn inverse(odd: u64) -> u64 {
    (0..6).fold(odd, |inverse, _| {
        inverse.wrapping_mul(2u64.wrapping_sub(odd.wrapping_mul(inverse)))
    })
}

#[test]
fn keys_of_one_hash_are_different_keys() {
    let keys = keys_of_one_hash(12);
    assert!(keys.iter().all(|key| xxh64(key) == xxh64(&keys[0])));
    for key_bits in KEY_BITS {
        let shape = shape(8, key_bits);
        for (count, each) in [(1, 6), (2, 6), (4, 3)] {
            let tiers = shape.tiers(keys.clone(), count, each);
            shape.checks(&tiers, 0);
            let twice = with_key(shape, &tiers, count - 1, keys[1].clone());
            shape.checks(&twice, 6);
        }
    }
}

/// More than the small table takes.
#[test]
fn many_keys_of_one_hash() {
    let shape = shape(64, 32);
    let tiers = shape.tiers(keys_of_one_hash(504), 8, 63);
    shape.checks(&tiers, 0);
    let key = tiers[3][40].1.clone();
    shape.checks(&with_key(shape, &tiers, 7, key), 6);
}
