//! Removals that take the last entry of a tier: an extra tier leaves its
//! chain and becomes the first free one. Every case is compared over every
//! byte of the image.

use super::grow::longer;
use super::on_the_spot::with_junk;
use super::search_end::{SEVEN, bulks, drop_keys, put};
use super::store_kinds::refused_inputs;
use super::worked_store::{
    FIELDS, after_p2, after_p4, after_p5, after_p6, block, block_of, stores, with,
};
use crate::{check, grow, lookup, remove};

/// A place in an image, the byte that is there and the one that comes.
pub type Change = (usize, u8, u8);

/// Tier 2 of X after p5: first free, used, the header's next, then slot 1,
/// low mark, entry count and free list of the tier.
pub const FREED_IN_X: [Change; 7] = [
    (11, 0, 2),
    (16, 1, 0),
    (80, 2, 0),
    (300, 1, 0),
    (376, 1, 0),
    (392, 1, 0),
    (424, 1, 0),
];

/// Tier 2 of [`one_in_each_extra_tier`]. It gets another next, and tier 3
/// another previous and order.
pub const FREED_BEFORE_TIER_3: [Change; 9] = [
    (11, 4, 2),
    (16, 2, 1),
    (80, 2, 3),
    (300, 5, 0),
    (360, 3, 4),
    (392, 1, 0),
    (424, 4, 0),
    (568, 2, 1),
    (588, 2, 1),
];

/// Tier 3 of [`chain_of_three`]. Tier 2 has its next in its own counters.
pub const FREED_AT_THE_END: [Change; 8] = [
    (11, 4, 3),
    (16, 2, 1),
    (360, 3, 0),
    (500, 1, 0),
    (560, 0, 4),
    (576, 1, 0),
    (592, 1, 0),
    (624, 1, 0),
];

#[track_caller]
pub fn changed(image: &[u8], changes: &[Change]) -> Vec<u8> {
    let mut after = image.to_vec();
    for (at, from, to) in changes {
        assert_eq!(after[*at], *from, "byte {at}");
        assert_ne!(from, to, "byte {at}");
        after[*at] = *to;
    }
    after
}

/// A removal that changes these bytes and no others.
#[track_caller]
pub fn removes(image: &mut [u8], key: [u8; 2], changes: &[Change]) {
    let after = changed(image, changes);
    assert_eq!(remove(&block(), image, &key), 0);
    assert_eq!(image, after);
}

#[track_caller]
pub fn absent(image: &[u8], key: [u8; 2]) {
    let mut after = image.to_vec();
    assert_eq!(remove(&block(), &mut after, &key), 1);
    assert_eq!(after, image);
}

#[track_caller]
pub fn counts(image: &[u8], counts: [u64; 4]) {
    assert_eq!(check(&block(), image), (0, counts));
}

/// X with three bulks: tiers 1 and 2 have three entries each, tier 3 has one
/// and tier 4 is free.
pub fn chain_of_three() -> Vec<u8> {
    let mut image = bulks(&[2, 3, 4]);
    put(&block(), &mut image, &SEVEN);
    assert_eq!((image[11], image[16], image[80], image[360]), (4, 2, 2, 3));
    image
}

/// The same with 05 01 alone in tier 2, in chunk 2.
pub fn one_in_each_extra_tier() -> Vec<u8> {
    let mut image = chain_of_three();
    drop_keys(&block(), &mut image, &[[1, 3], [4, 1]]);
    counts(&image, [5, 5, 3, 1]);
    image
}

/// Without the entries of an extra tier, which stays in its chain.
pub fn emptied_by_hand(mut image: Vec<u8>, tier: usize) -> Vec<u8> {
    let start = 200 * tier - 104;
    for (from, to) in [(0, 16), (80, 88), (96, 100), (128, 129)] {
        image[start + from..start + to].fill(0);
    }
    image
}

#[test]
fn worked_a_removal() {
    let mut image = after_p5();
    removes(&mut image, [1, 3], &FREED_IN_X);
    assert_eq!((image[360], image[368], image[388]), (0, 1, 1));
    assert_eq!(image[432..440], [2, 1, 3, 4, 8, 8, 8, 8]);
    counts(&image, [3, 3, 1, 1]);
}

#[test]
fn worked_a_chain_of_three() {
    let mut image = chain_of_three();
    let found = lookup(&block(), &image, &[6, 1]);
    assert_eq!(found, (0, [636, 4, 3, 1]));
    drop_keys(&block(), &mut image, &[[1, 3], [4, 1]]);
    removes(&mut image, [5, 1], &FREED_BEFORE_TIER_3);
    assert_eq!((image[368], image[388]), (1, 1));
    counts(&image, [4, 4, 2, 2]);
    assert_eq!(lookup(&block(), &image, &[6, 1]), found);
}

#[test]
fn the_last_of_a_chain_of_three() {
    let mut image = chain_of_three();
    removes(&mut image, [6, 1], &FREED_AT_THE_END);
    assert_eq!((image[568], image[588]), (2, 2));
    counts(&image, [6, 6, 2, 2]);
}

/// X with six bulks. Each tier of the chain has three entries, with the keys
/// 0 1 to 14 1 in this order; tiers 4 and 7 are free.
const CHAIN: [usize; 5] = [1, 5, 2, 6, 3];

fn chain_of_five() -> Vec<u8> {
    let mut image = bulks(&[5, 2, 6, 3, 4, 7]);
    let keys: Vec<[u8; 2]> = (0..15).map(|n| [n, 1]).collect();
    put(&block(), &mut image, &keys);
    assert_eq!((image[11], image[16]), (4, 4));
    image
}

fn place_in(chain: &[usize], tier: usize) -> usize {
    chain.iter().position(|other| *other == tier).unwrap()
}

fn keys_of(tier: usize) -> [[u8; 2]; 3] {
    let first = 3 * place_in(&CHAIN, tier) as u8;
    [0, 1, 2].map(|n| [first + n, 1])
}

/// What the removal of a tier's last entry leaves of an image with this chain
/// and this first free tier.
fn freed(image: &[u8], chain: &[usize], tier: usize, head: usize) -> Vec<u8> {
    let next_at = |tier: usize| if tier == 1 { 80 } else { 200 * tier - 40 };
    let place = place_in(chain, tier);
    let mut previous = chain[place - 1];
    let mut image = emptied_by_hand(image.to_vec(), tier);
    image[11] = tier as u8;
    image[16] -= 1;
    image[next_at(tier)] = head as u8;
    image[next_at(previous)] = 0;
    for (order, &later) in (place..).zip(&chain[place + 1..]) {
        image[next_at(previous)] = later as u8;
        image[200 * later - 32] = previous as u8;
        image[200 * later - 12] = order as u8;
        previous = later;
    }
    image
}

#[test]
fn each_tier_of_a_chain_of_five() {
    for tier in &CHAIN[1..] {
        let mut image = chain_of_five();
        let [first, second, third] = keys_of(*tier);
        drop_keys(&block(), &mut image, &[second, first]);
        counts(&image, [13, 13, 5, 2]);
        let after = freed(&image, &CHAIN, *tier, 4);
        drop_keys(&block(), &mut image, &[third]);
        assert_eq!(image, after);
        counts(&image, [12, 12, 4, 3]);
    }
}

/// Every order in which the four extra tiers may be emptied.
fn all_orders() -> Vec<[usize; 4]> {
    let order = |n: usize| {
        let mut left = CHAIN[1..].to_vec();
        [n / 6, n / 2 % 3, n % 2, 0].map(|place| left.remove(place))
    };
    (0..24).map(order).collect()
}

/// The tier that was freed last is the first to be taken again.
#[test]
fn a_chain_that_is_taken_apart_and_built_again() {
    for order in all_orders() {
        let mut image = chain_of_five();
        let mut chain = CHAIN.to_vec();
        let mut free = vec![7, 4];
        for tier in order {
            let [first, second, third] = keys_of(tier);
            drop_keys(&block(), &mut image, &[third, first]);
            let after = freed(&image, &chain, tier, free[free.len() - 1]);
            drop_keys(&block(), &mut image, &[second]);
            assert_eq!(image, after);
            chain.retain(|other| *other != tier);
            free.push(tier);
        }
        counts(&image, [3, 3, 1, 6]);
        for (n, tier) in (0..).zip(free.iter().rev()) {
            put(&block(), &mut image, &[[n, 5], [n, 6], [n, 7]]);
            assert_eq!(lookup(&block(), &image, &[n, 6]).1[2], *tier as u64);
        }
        counts(&image, [21, 21, 7, 0]);
    }
}

/// Taken as in p5, it has the bytes that it had then.
#[test]
fn a_freed_tier_is_taken_again() {
    let mut image = after_p5();
    drop_keys(&block(), &mut image, &[[1, 3]]);
    stores(image, [1, 3], &[8; 4], 0, after_p5());
}

#[test]
fn other_entries_keep_a_tier_in_its_chain() {
    let mut image = after_p6();
    let third = [(308, 5, 0), (376, 3, 2), (392, 3, 2), (424, 7, 3)];
    removes(&mut image, [5, 1], &third);
    let slots = [(300, 1, 3), (304, 3, 0)];
    let counters = [(376, 2, 0), (392, 2, 1), (424, 3, 2)];
    removes(&mut image, [1, 3], &[&slots[..], &counters].concat());
    counts(&image, [4, 4, 2, 0]);
}

/// Alone, and with two tiers after it.
#[test]
fn a_main_tier_stays() {
    let emptied = [(72, 1, 0), (76, 1, 0), (100, 1, 0), (224, 1, 0)];
    let mut image = after_p2();
    removes(&mut image, [1, 2], &emptied);
    counts(&image, [0, 0, 1, 1]);

    let mut image = one_in_each_extra_tier();
    drop_keys(&block(), &mut image, &[[2, 1], [3, 1]]);
    removes(&mut image, [1, 2], &emptied);
    counts(&image, [2, 2, 3, 1]);
    removes(&mut image, [5, 1], &FREED_BEFORE_TIER_3);
    drop_keys(&block(), &mut image, &[[6, 1]]);
    assert_eq!((image[11], image[16], image[80]), (3, 0, 0));
    counts(&image, [0, 0, 1, 3]);
}

/// The low marks of tiers 1 and 3 lag, before and after these are joined.
#[test]
fn the_neighbours_keep_their_lag() {
    let mut image = with(one_in_each_extra_tier(), &[(76, &[1]), (576, &[0])]);
    removes(&mut image, [5, 1], &FREED_BEFORE_TIER_3);
    counts(&image, [4, 4, 2, 2]);
}

/// With seven chunks to a tier the eighth bit stays in the freed tier, and
/// locks, reserved bytes and a main tier's own counters stay as they are.
#[test]
fn bytes_that_are_not_read_stay() {
    let mut fields = FIELDS;
    fields[10] = 7;
    let block = block_of(fields);
    let mut image = with_junk();
    drop_keys(&block, &mut image, &[[1, 3], [4, 1]]);
    let links = [(11, 0, 2), (16, 1, 0), (80, 2, 0)];
    let contents = [(300, 5, 0), (392, 1, 0), (424, 0x84, 0x80)];
    let after = changed(&image, &[links, contents].concat());
    assert_eq!(remove(&block, &mut image, &[5, 1]), 0);
    assert_eq!(image, after);
    assert_eq!(check(&block, &image), (0, [3, 3, 1, 1]));
}

/// Tier 3 comes with a further bulk, and the freed tier stands before it.
#[test]
fn a_freed_tier_comes_before_those_of_a_new_bulk() {
    let mut image = longer(after_p5(), 200, 0xEE);
    assert_eq!(grow(&block(), &mut image), 0);
    let links = [(11, 3, 2), (360, 0, 3)];
    removes(&mut image, [1, 3], &[&links, &FREED_IN_X[1..]].concat());
    counts(&image, [3, 3, 1, 2]);
}

#[test]
fn a_search_ends_in_the_last_tier_that_is_left() {
    let mut image = after_p5();
    drop_keys(&block(), &mut image, &[[1, 3]]);
    assert_eq!(lookup(&block(), &image, &[1, 3]), (1, [0, 0, 1, 0]));
    absent(&image, [1, 3]);
    let mut image = one_in_each_extra_tier();
    drop_keys(&block(), &mut image, &[[6, 1]]);
    assert_eq!(lookup(&block(), &image, &[6, 1]), (1, [0, 0, 2, 2]));
    absent(&image, [6, 1]);
}

/// The key is the only one of its tier, or it is absent or no key.
#[test]
fn refused_removals_free_no_tier() {
    for (number, block, image) in refused_inputs() {
        for key in [&[1, 3][..], &[4, 1], &[], &[7; 1025]] {
            let mut after = image.clone();
            assert_eq!(remove(&block, &mut after, key), number);
            assert_eq!(after, image);
        }
    }
    for before in [after_p4(), after_p5(), emptied_by_hand(after_p5(), 2)] {
        for key in [&[][..], &[7; 1025]] {
            let mut image = before.clone();
            assert_eq!(remove(&block(), &mut image, key), 8);
            assert_eq!(image, before);
        }
        absent(&before, [7, 7]);
    }
}
