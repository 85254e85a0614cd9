//! Freed tiers with several segments, in long chains, and under settings of
//! all kinds among stores, removals and further bulks.

use std::collections::BTreeMap;

use super::empty_tiers::{Change, changed};
use super::grow_settings::{Shape, any_shape, noise, small, uint};
use super::search_end::{drop_keys, put};
use super::store_kinds::Chance;
use super::worked_store::{FIELDS, Store};
use crate::{check, grow, lookup, remove, store, store_tight, xxh64};

/// How the tiers are linked. It is read apart from the code that is tested,
/// and what a call should make of it is said apart from that code too.
#[derive(Clone, Debug, PartialEq)]
struct Links {
    used: usize,
    chains: Vec<Vec<usize>>,
    free: Vec<usize>,
    /// Previous, segment and order in the counters of every tier.
    standings: Vec<[usize; 3]>,
    /// The next in a main tier's own counters, which is not read.
    unread: Vec<usize>,
}

impl Links {
    fn free(&mut self, tier: usize) {
        for chain in &mut self.chains {
            chain.retain(|other| *other != tier);
        }
        self.free.insert(0, tier);
        self.used -= 1;
    }

    fn take(&mut self, segment: usize) {
        let tier = self.free.remove(0);
        self.chains[segment].push(tier);
        self.used += 1;
    }

    /// Those of chained tiers follow from the chains, and those of free tiers
    /// are what they were.
    fn with_standings(mut self) -> Links {
        for (segment, chain) in self.chains.iter().enumerate() {
            for (order, pair) in (1..).zip(chain.windows(2)) {
                self.standings[pair[1] - 1] = [pair[0], segment, order];
            }
        }
        self
    }
}

impl Shape {
    fn header(&self, tier: usize) -> Option<usize> {
        (tier <= self.field(2)).then(|| self.headers + (tier - 1) * self.field(3))
    }

    fn counters(&self, tier: usize) -> usize {
        let main = self.headers + self.field(2) * self.field(3);
        let start = match tier.checked_sub(self.field(2) + 1) {
            None => main + (tier - 1) * self.field(13),
            Some(extra) => self.extra(extra),
        };
        start + self.field(8)
    }

    fn next(&self, image: &[u8], tier: usize) -> usize {
        let header = self.header(tier).map(|header| header + 16);
        let at = header.unwrap_or_else(|| self.counters(tier));
        uint(&image[at..at + 8])
    }

    fn entries(&self, image: &[u8], tier: usize) -> usize {
        let header = self.header(tier).map(|header| header + 8);
        let at = header.unwrap_or_else(|| self.counters(tier) + 32);
        uint(&image[at..at + 4])
    }

    fn chain(&self, image: &[u8], first: usize) -> Vec<usize> {
        let mut chain = Vec::new();
        let mut tier = first;
        while tier != 0 {
            assert!(!chain.contains(&tier));
            chain.push(tier);
            tier = self.next(image, tier);
        }
        chain
    }

    fn links(&self, image: &[u8]) -> Links {
        let (state, segments) = (self.field(1), self.field(2));
        let tiers = segments + uint(&image[state + 8..state + 11]) * self.field(15);
        let standing = |tier: usize| {
            let counters = &image[self.counters(tier)..];
            [(8, 16), (24, 28), (28, 32)].map(|(from, to)| uint(&counters[from..to]))
        };
        let own_next = |tier: usize| uint(&image[self.counters(tier)..][..8]);
        Links {
            used: uint(&image[state + 16..state + 21]),
            chains: (1..=segments).map(|main| self.chain(image, main)).collect(),
            free: self.chain(image, uint(&image[state + 11..state + 16])),
            standings: (1..=tiers).map(standing).collect(),
            unread: (1..=segments).map(own_next).collect(),
        }
    }

    /// The tier that has the key.
    fn tier_of(&self, image: &[u8], key: &[u8]) -> Option<usize> {
        let (number, [_, _, tier, _]) = lookup(&self.block(), image, key);
        (number == 0).then_some(tier as usize)
    }

    /// A removal of the only entry of its tier.
    #[track_caller]
    fn frees(&self, image: &mut [u8], key: [u8; 2]) {
        let tier = self.tier_of(image, &key).unwrap();
        let mut links = self.links(image);
        links.free(tier);
        drop_keys(&self.block(), image, &[key]);
        assert_eq!(self.links(image), links.with_standings());
        assert_eq!(check(&self.block(), image).0, 0);
    }
}

/// X with two segments and three bulks. Headers are at 64 and 96, the extra
/// tiers 3, 4 and 5 have their counters at 592, 792 and 992.
fn two_segments() -> (Shape, Vec<u8>) {
    let mut fields = FIELDS;
    fields[1] = 2;
    let shape = Shape {
        fields,
        headers: 64,
    };
    let image = shape.empty_store(3, vec![0; shape.store_size(3)]);
    (shape, image)
}

fn keys_of(segment: u64) -> Vec<[u8; 2]> {
    let keys = (1..=64).map(|channel| [channel, 0]);
    keys.filter(|key| xxh64(key) % 2 == segment)
        .take(9)
        .collect()
}

/// The second segment has tiers 2, 3, 4 and the first 1, 5. Tier 3 is emptied
/// and taken by the first, which had got 10 for lack of it.
#[test]
fn one_segment_gets_a_tier_that_another_has_freed() {
    let (shape, mut image) = two_segments();
    let (first, second) = (keys_of(0), keys_of(1));
    put(&shape.block(), &mut image, &second[..7]);
    put(&shape.block(), &mut image, &first[..6]);
    let full = image.clone();
    assert_eq!(store(&shape.block(), &mut image, &first[6], &[9; 4]), 10);
    assert_eq!(image, full);

    drop_keys(&shape.block(), &mut image, &second[3..5]);
    let freed: [Change; 9] = [
        (11, 0, 3),
        (16, 3, 2),
        (112, 3, 4),
        (532, 5, 0),
        (592, 4, 0),
        (624, 1, 0),
        (656, 4, 0),
        (800, 3, 2),
        (820, 2, 1),
    ];
    let after = changed(&image, &freed);
    drop_keys(&shape.block(), &mut image, &second[5..6]);
    assert_eq!(image, after);
    // Previous, segment and order of tier 3, segment of tier 4.
    assert_eq!((image[600], image[616], image[620]), (2, 1, 1));
    assert_eq!(image[816], 1);
    assert_eq!(check(&shape.block(), &image), (0, [10, 10, 4, 1]));

    put(&shape.block(), &mut image, &first[6..7]);
    assert_eq!((image[11], image[16], image[992]), (0, 3, 3));
    assert_eq!((image[600], image[616], image[620]), (5, 0, 2));
    assert_eq!(check(&shape.block(), &image), (0, [11, 11, 5, 0]));
}

/// By a store that replaces, in the second segment. The first has an empty
/// tier of its own, which stays.
#[test]
fn a_replacement_frees_a_tier_of_its_own_segment_only() {
    let (shape, mut image) = two_segments();
    let (first, second) = (keys_of(0), keys_of(1));
    put(&shape.block(), &mut image, &first[..4]);
    put(&shape.block(), &mut image, &second[..4]);
    // The entry of tier 3: slot, low mark, entry count and bit.
    for at in [532, 608, 624, 656] {
        assert_eq!(image[at], 1);
        image[at] = 0;
    }
    drop_keys(&shape.block(), &mut image, &second[..1]);
    let mut links = shape.links(&image);
    assert_eq!(links.chains, [[1, 3], [2, 4]]);
    links.free(4);
    assert_eq!(store(&shape.block(), &mut image, &second[3], &[9; 5]), 0);
    assert_eq!(shape.links(&image), links.with_standings());
    assert_eq!(check(&shape.block(), &image), (0, [6, 7, 3, 2]));
    drop_keys(&shape.block(), &mut image, &first[..3]);
    assert_eq!(check(&shape.block(), &image), (0, [3, 4, 3, 2]));
}

/// One entry to a tier, so that the chain has 300 of them and indexes, orders
/// and the used count have two bytes.
#[test]
fn numbers_of_two_bytes() {
    let shape = small(1, 1);
    let mut image = shape.empty_store(299, vec![0xEE; shape.store_size(299)]);
    let keys: Vec<[u8; 2]> = (0..300).map(u16::to_be_bytes).collect();
    put(&shape.block(), &mut image, &keys);
    assert_eq!(shape.links(&image).chains[0].len(), 300);
    // The orders 1, 299, 256, 255, 257, 2 and 128 as they were at the start.
    for place in [1, 299, 256, 255, 257, 2, 128] {
        shape.frees(&mut image, keys[place]);
    }
    assert_eq!(check(&shape.block(), &image), (0, [293, 293, 293, 7]));
    let mut links = shape.links(&image);
    assert_eq!(links.free, [129, 3, 258, 256, 257, 300, 2]);
    links.take(0);
    put(&shape.block(), &mut image, &[[5, 5]]);
    assert_eq!(shape.links(&image), links.with_standings());
}

/// A removal leaves the record alone, so that it is a call like the stores.
const CALLS: [Store; 3] = [
    |block, image, key, _| remove(block, image, key),
    store,
    store_tight,
];

/// How often each of the calls has freed a tier from a chain's middle and from
/// its end, and how often one has kept its only entry.
#[derive(Debug, Default)]
struct Seen {
    middle: [usize; 3],
    end: [usize; 3],
    kept: [usize; 3],
}

struct History {
    shape: Shape,
    image: Vec<u8>,
    map: BTreeMap<[u8; 2], Vec<u8>>,
}

impl History {
    fn call(&mut self, call: usize, key: [u8; 2], record: Vec<u8>, seen: &mut Seen) {
        let before = self.image.clone();
        let block = self.shape.block();
        let number = CALLS[call](&block, &mut self.image, &key, &record);
        if call == 0 {
            let there = self.map.remove(&key).is_some();
            assert_eq!(number, u32::from(!there));
        } else if number == 0 {
            self.map.insert(key, record);
        }
        if number != 0 {
            assert!(number == 10 || call == 0);
            assert_eq!(self.image, before);
            return;
        }
        assert_eq!(check(&block, &self.image).1[0], self.map.len() as u64);
        let after = self.linked_after(&before, call, key, seen);
        assert_eq!(self.shape.links(&self.image), after);
    }

    /// By the links before the call and the tiers that had and have the key.
    fn linked_after(&self, before: &[u8], call: usize, key: [u8; 2], seen: &mut Seen) -> Links {
        let shape = &self.shape;
        let mut links = shape.links(before);
        let had = shape.tier_of(before, &key);
        let has = shape.tier_of(&self.image, &key);
        let only = |tier: &usize| *tier > shape.field(2) && shape.entries(before, *tier) == 1;
        match had.filter(only) {
            Some(tier) if has == Some(tier) => seen.kept[call] += 1,
            Some(tier) => {
                let last = shape.next(before, tier) == 0;
                let seen = if last {
                    &mut seen.end
                } else {
                    &mut seen.middle
                };
                seen[call] += 1;
                links.free(tier);
            }
            None if has.is_some_and(|tier| links.free.contains(&tier)) => {
                links.take(xxh64(&key) as usize % shape.field(2));
            }
            None => {}
        }
        links.with_standings()
    }
}

/// Settings under which a tier has room for few entries, and entries of
/// several sizes have room in it.
fn shape_of_small_tiers(chance: &mut Chance) -> Shape {
    loop {
        let shape = any_shape(chance);
        let [most, all] = [shape.field(17), shape.field(11)].map(|count| count * shape.field(12));
        if most >= 16 && all < 64 {
            return shape;
        }
    }
}

/// Stores of both kinds, removals, and now and then a further bulk.
fn run_history(mut chance: Chance, seen: &mut Seen) {
    let shape = shape_of_small_tiers(&mut chance);
    let image = noise(&mut chance, shape.store_size(5));
    let image = shape.empty_store(3, image);
    let longest = shape.field(17) * shape.field(12) - 4;
    let mut history = History {
        shape,
        image,
        map: BTreeMap::new(),
    };
    for n in 1..=200 {
        let key = [chance.below(30) as u8, 1];
        let record = vec![n; chance.below(longest as u64 + 1)];
        history.call(chance.below(3), key, record, seen);
        if n % 80 == 0 {
            assert_eq!(grow(&history.shape.block(), &mut history.image), 0);
        }
    }
    for (key, record) in &history.map {
        let (_, [at, length, _, _]) = lookup(&history.shape.block(), &history.image, key);
        assert_eq!(history.image[at as usize..][..length as usize], *record);
    }
}

#[test]
fn histories_under_all_kinds_of_settings() {
    let mut seen = Seen::default();
    for seed in 1..=60 {
        run_history(Chance(seed), &mut seen);
    }
    let Seen { middle, end, kept } = seen;
    let times = [middle, end].concat();
    assert!(times.iter().chain(&kept[1..]).all(|times| *times > 0));
}
