//! Two stores of one map with other bytes: one list of calls has the same
//! answers in both, up to the first 10 of either. Places are not compared.

use super::empty_tiers::emptied_by_hand;
use super::search_end::{SEVEN, bulks, drop_keys, put};
use super::store_kinds::{Chance, records};
use super::worked_store::{BOTH_KINDS, Store, after_p5, after_p6, block, store_x, with};
use crate::{delay, lookup, quick_delay, quick_lookup, remove, set_delay, store, store_tight};

#[derive(Clone, Copy)]
enum Call<'a> {
    Lookup(&'a [u8]),
    /// The record is as long as the number says.
    Store(Store, &'a [u8], usize),
    Remove(&'a [u8]),
    Ask(u32, u32),
    Set(u32, u32, i32),
}

use Call::{Ask, Lookup, Remove, Set, Store as Put};

/// Number, record and delay. The quick calls answer as the checked ones.
type Answer = (u32, Vec<u8>, i32);

#[track_caller]
fn answer(image: &mut [u8], call: Call) -> Answer {
    let number = match call {
        Lookup(key) => {
            let (number, place) = lookup(&block(), image, key);
            assert_eq!(quick_lookup(&block(), image, key), (number, place));
            let [at, length, ..] = place.map(|number| number as usize);
            return (number, image[at..at + length].to_vec(), 0);
        }
        Ask(a, b) => {
            let (number, found) = delay(&block(), image, a, b);
            assert_eq!(quick_delay(&block(), image, a, b), (number, found));
            return (number, vec![], found);
        }
        Put(kind, key, length) => kind(&block(), image, key, &vec![5; length]),
        Remove(key) => remove(&block(), image, key),
        Set(a, b, delay) => set_delay(&block(), image, a, b, delay),
    };
    (number, vec![], 0)
}

/// The numbers of a list, to which two images give the same answers. They
/// read as one map before and after it.
#[track_caller]
fn agree(one: &mut [u8], other: &mut [u8], list: &[Call]) -> Vec<u32> {
    assert_eq!(records(one), records(other));
    let mut numbers = Vec::new();
    for &call in list {
        let answered = answer(one, call);
        assert_eq!(answer(other, call), answered, "call {}", numbers.len());
        numbers.push(answered.0);
    }
    assert_eq!(records(one), records(other));
    numbers
}

/// The records of an image, stored in another one in this order of their keys.
#[track_caller]
fn stored_again(image: &[u8], mut into: Vec<u8>, order: &[[u8; 2]]) -> Vec<u8> {
    let records = records(image);
    for key in order {
        assert_eq!(store(&block(), &mut into, key, &records[key]), 0);
    }
    into
}

/// After p6 the first three are in tier 1 and the last three in tier 2; here
/// it is the other way round.
const BACKWARD: [[u8; 2]; 6] = [[5, 1], [4, 1], [1, 3], [3, 1], [2, 1], [1, 2]];

fn backward() -> Vec<u8> {
    stored_again(&after_p6(), store_x(), &BACKWARD)
}

/// A list and its numbers, in both of these stores.
#[track_caller]
fn answered_in_both_orders(list: &[(Call, u32)]) {
    let (calls, numbers): (Vec<_>, Vec<_>) = list.iter().copied().unzip();
    assert_eq!(agree(&mut after_p6(), &mut backward(), &calls), numbers);
}

#[test]
fn places_differ_and_records_do_not() {
    let (forward, backward) = (after_p6(), backward());
    assert_eq!(records(&forward), records(&backward));
    for (key, one, other) in [
        ([1, 2], [236, 4, 1, 1], [452, 4, 2, 3]),
        ([2, 1], [244, 4, 1, 2], [444, 4, 2, 2]),
        ([5, 1], [452, 4, 2, 3], [236, 4, 1, 1]),
    ] {
        assert_eq!(lookup(&block(), &forward, &key), (0, one));
        assert_eq!(lookup(&block(), &backward, &key), (0, other));
        let at = |[at, ..]: [u64; 4]| at as usize..at as usize + 4;
        assert_eq!(forward[at(one)], backward[at(other)]);
    }
}

#[test]
fn a_list_of_every_number_but_10() {
    let list = [
        (Lookup(&[1, 2]), 0),
        (Lookup(&[6, 1]), 1),
        (Lookup(&[]), 8),
        (Put(store, &[1, 2], 2), 0),
        (Put(store_tight, &[4, 1], 1), 0),
        (Put(store, &[1, 2], 29), 9),
        (Put(store_tight, &[], 29), 8),
        (Remove(&[2, 1]), 0),
        (Remove(&[2, 1]), 1),
        (Remove(&[]), 8),
        (Put(store, &[6, 1], 20), 0),
        (Lookup(&[6, 1]), 0),
        (Put(store_tight, &[6, 1], 0), 0),
        (Lookup(&[1, 2]), 0),
        (Lookup(&[2, 1]), 1),
    ];
    answered_in_both_orders(&list);
}

#[test]
fn delays_by_pair() {
    let list = [
        (Ask(1, 2), 0),
        (Ask(2, 1), 0),
        (Set(3, 1, 7), 0),
        (Ask(1, 3), 0),
        (Set(2, 1, i32::MIN), 12),
        (Set(2, 2, 7), 11),
        (Ask(1, 33), 11),
        (Ask(1, 4), 1),
        (Put(store_tight, &[1, 2], 3), 0),
        (Ask(2, 1), 12),
        (Remove(&[1, 3]), 0),
        (Set(4, 1, 8), 0),
        (Ask(1, 4), 0),
    ];
    answered_in_both_orders(&list);
}

/// After p6 and in the other order no tier takes another key.
const TOO_MANY: [Call; 3] = [
    Put(store, &[6, 7], 4),
    Put(store_tight, &[6, 7], 4),
    Set(6, 7, 1),
];

#[test]
fn the_first_10_in_both_at_once() {
    for full in TOO_MANY {
        answered_in_both_orders(&[(Lookup(&[6, 7]), 1), (full, 10)]);
    }
}

/// A tier more in the one: it takes the record that the other has no room for,
/// and from there on they are two maps.
#[test]
fn the_first_10_in_one_alone_ends_it() {
    for full in TOO_MANY {
        let mut one = after_p6();
        let mut other = stored_again(&one, bulks(&[2, 3]), &BACKWARD);
        agree(&mut one, &mut other, &[Lookup(&[6, 7]), Remove(&[6, 7])]);
        assert_eq!(answer(&mut one, full).0, 10);
        assert_eq!(answer(&mut other, full).0, 0);
        assert_eq!(answer(&mut one, Lookup(&[6, 7])).0, 1);
        assert_eq!(answer(&mut other, Lookup(&[6, 7])).0, 0);
    }
}

/// A chained tier without entries, marks that lag, another bulk and bytes
/// behind it: what no map shows is in no answer.
#[test]
fn what_the_map_does_not_show() {
    let mut plain = after_p5();
    drop_keys(&block(), &mut plain, &[[1, 3]]);
    let mut other = bulks(&[3, 2]);
    put(&block(), &mut other, &SEVEN);
    drop_keys(&block(), &mut other, &SEVEN[3..]);
    other = stored_again(&plain, other, &[[3, 1], [1, 2], [2, 1]]);
    other.extend([0xEE; 30]);
    let empty = with(emptied_by_hand(after_p5(), 2), &[(76, &[0])]);
    let list = [
        Lookup(&[3, 1]),
        Put(store_tight, &[3, 1], 9),
        Put(store, &[1, 3], 4),
        Set(3, 1, -5),
        Remove(&[1, 2]),
        Remove(&[1, 3]),
        Put(store, &[2, 1], 28),
        Lookup(&[2, 1]),
    ];
    for mut image in [other, empty] {
        assert_ne!(image, plain);
        let numbers = agree(&mut plain.clone(), &mut image, &list);
        assert_eq!(numbers, [0; 8]);
    }
}

/// Stores in any order with other keys between, then any calls up to a 10.
#[test]
fn histories_of_one_map() {
    let mut ends = [0; 2];
    for seed in 1..=60 {
        let mut chance = Chance(seed);
        let mut images = [bulks(&[2, 3, 4]), bulks(&[3, 2])];
        for image in &mut images {
            in_some_order(image, &mut chance);
        }
        ends[usize::from(any_calls(images, &mut chance))] += 1;
    }
    assert!(ends[0] > 0 && ends[1] > 0, "{ends:?}");
}

/// Records of one chunk and of two under the seven keys.
fn in_some_order(image: &mut [u8], chance: &mut Chance) {
    let mut left: Vec<usize> = (0..SEVEN.len()).collect();
    while !left.is_empty() {
        let n = left.swap_remove(chance.below(left.len() as u64));
        let passing = [9, chance.below(4) as u8];
        let kind = BOTH_KINDS[chance.below(2)];
        let was_stored = kind(&block(), image, &passing, &[1; 12]) == 0;
        assert_eq!(kind(&block(), image, &SEVEN[n], &vec![n as u8; 2 * n]), 0);
        assert_eq!(remove(&block(), image, &passing), u32::from(!was_stored));
    }
}

/// Answers whether a 10 has ended the list.
#[track_caller]
fn any_calls([mut one, mut other]: [Vec<u8>; 2], chance: &mut Chance) -> bool {
    for _ in 0..20 {
        let key: &[u8] = &SEVEN[chance.below(7)].map(|byte| byte + chance.below(2) as u8);
        let kind = BOTH_KINDS[chance.below(2)];
        let call = match chance.below(6) {
            0 => Lookup(key),
            1..4 => Put(kind, key, chance.below(20)),
            _ => Remove(key),
        };
        let answers = [answer(&mut one, call), answer(&mut other, call)];
        if answers.iter().any(|(number, ..)| *number == 10) {
            return true;
        }
        assert_eq!(answers[0], answers[1]);
        assert_eq!(records(&one), records(&other));
    }
    false
}
