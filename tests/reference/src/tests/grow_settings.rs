//! One more bulk under settings of all kinds and up to the most tiers, and
//! among stores and removals.

use super::grow::{longer, refuses};
use super::on_the_spot::one_tier;
use super::store_kinds::{Chance, History, Records, images, reads_as, records};
use super::worked_store::{FIELDS, block, block_of};
use crate::{check, entry, grow, lookup, store};

/// Settings and a headers offset. Images are built by them, and what a new
/// bulk should hold is said by them, apart from the code that is tested.
#[derive(Debug)]
pub struct Shape {
    pub fields: [u32; 17],
    pub headers: usize,
}

const X: Shape = Shape {
    fields: FIELDS,
    headers: 64,
};

pub fn uint(bytes: &[u8]) -> usize {
    let digits = bytes.iter().rev();
    digits.fold(0, |number, byte| number << 8 | *byte as usize)
}

impl Shape {
    /// By its number in the table of fields.
    pub fn field(&self, number: usize) -> usize {
        self.fields[number - 1] as usize
    }

    pub fn block(&self) -> Vec<u8> {
        block_of(self.fields)
    }

    pub fn store_size(&self, bulks: usize) -> usize {
        let main = self.field(2) * (self.field(3) + self.field(13));
        self.headers + main + bulks * self.field(16)
    }

    /// Start of an extra tier, counted from 0.
    pub fn extra(&self, n: usize) -> usize {
        let (bulk, place) = (n / self.field(15), n % self.field(15));
        self.store_size(bulk) + self.field(14) + place * self.field(13)
    }

    /// A free tier as a new bulk has it.
    fn put_blank(&self, image: &mut [u8], start: usize, next: usize) {
        let counters = start + self.field(8);
        image[start..start + self.field(5) * self.field(4)].fill(0);
        image[counters..counters + 8].copy_from_slice(&(next as u64).to_le_bytes());
        image[counters + 8..counters + 36].fill(0);
        for chunk in 0..self.field(11) {
            image[counters + 64 + chunk / 8] &= !(1 << (chunk % 8));
        }
    }

    /// Bulk count, first free tier and store size.
    fn put_state(&self, image: &mut [u8], bulks: usize, first_free: usize) {
        let state = &mut image[self.field(1)..];
        state[8..11].copy_from_slice(&bulks.to_le_bytes()[..3]);
        state[11..16].copy_from_slice(&first_free.to_le_bytes()[..5]);
        state[25..33].copy_from_slice(&self.store_size(bulks).to_le_bytes());
    }

    /// Made of any bytes, which stay where none is read. The free chain is
    /// ascending.
    pub fn empty_store(&self, bulks: usize, mut image: Vec<u8>) -> Vec<u8> {
        let (state, segments) = (self.field(1), self.field(2));
        let extra = bulks * self.field(15);
        let first_free = if extra == 0 { 0 } else { segments + 1 };
        self.put_state(&mut image, bulks, first_free);
        image[state + 16..state + 21].fill(0);
        image[state + 21..state + 25].copy_from_slice(&self.headers.to_le_bytes()[..4]);
        for segment in 0..segments {
            let header = self.headers + segment * self.field(3);
            image[header + 8..header + 24].fill(0);
            let main = self.headers + segments * self.field(3) + segment * self.field(13);
            // Its own next is not read.
            self.put_blank(&mut image, main, 77);
            image[main + self.field(8) + 24] = segment as u8;
        }
        for n in 0..extra {
            let next = if n + 1 == extra { 0 } else { segments + n + 2 };
            self.put_blank(&mut image, self.extra(n), next);
        }
        image
    }

    /// What an image with room is after the call.
    fn grown(&self, mut image: Vec<u8>) -> Vec<u8> {
        let state = self.field(1);
        let bulks = uint(&image[state + 8..state + 11]);
        let old_head = uint(&image[state + 11..state + 16]);
        let (old, new) = (bulks * self.field(15), (bulks + 1) * self.field(15));
        for n in old..new {
            let index = self.field(2) + n + 1;
            let next = if n + 1 == new { old_head } else { index + 1 };
            self.put_blank(&mut image, self.extra(n), next);
        }
        self.put_state(&mut image, bulks + 1, self.field(2) + old + 1);
        image
    }

    #[track_caller]
    fn grows(&self, image: &mut Vec<u8>) {
        let after = self.grown(image.clone());
        assert_eq!(grow(&self.block(), image), 0, "{self:?}");
        assert!(*image == after, "{self:?}");
    }
}

/// One chunk to a tier, no gaps, and this many tiers in a bulk.
pub fn small(segments: u32, in_bulk: u32) -> Shape {
    let tier = 16 + 64 + 1 + 8;
    let bulk = in_bulk * tier;
    Shape {
        fields: [
            0, segments, 32, 4, 4, 1, 1, 16, 1, 0, 1, 8, tier, 0, in_bulk, bulk, 1,
        ],
        headers: 33,
    }
}

/// Segments, tiers in a bulk, bulks: one bulk more makes 1,024 tiers, and
/// another is refused although there is room.
#[test]
fn exactly_1024_tiers() {
    for (segments, in_bulk, bulks) in [
        (1, 1, 1022),
        (1, 11, 92),
        (1, 33, 30),
        (64, 64, 14),
        (256, 3, 255),
        (256, 64, 11),
    ] {
        let shape = small(segments, in_bulk);
        let length = shape.store_size(bulks + 2);
        let mut image = shape.empty_store(bulks, vec![0xEE; length]);
        shape.grows(&mut image);
        let segments = u64::from(segments);
        let counts = [0, 0, segments, 1024 - segments];
        assert_eq!(check(&shape.block(), &image), (0, counts));
        refuses(&shape.block(), &image, 13);
        image.truncate(shape.store_size(bulks + 1));
        refuses(&shape.block(), &image, 13);
    }
}

/// One bulk more would make 1,025 tiers, or 1,088 in the last case.
#[test]
fn more_than_1024_tiers() {
    for (segments, in_bulk, bulks) in [
        (1, 1, 1023),
        (1, 2, 511),
        (1, 64, 15),
        (2, 31, 32),
        (64, 31, 30),
        (256, 64, 12),
    ] {
        let shape = small(segments, in_bulk);
        let length = shape.store_size(bulks + 1);
        for length in [shape.store_size(bulks), length - 1, length, length + 1] {
            let image = shape.empty_store(bulks, vec![0xEE; length]);
            assert_eq!(check(&shape.block(), &image).0, 0);
            refuses(&shape.block(), &image, 13);
        }
    }
}

/// A frame with more tiers than are allowed is refused as it was.
#[test]
fn too_many_tiers_from_the_start() {
    let (shape, bulks) = (small(1, 1), 1024);
    for room in [0, shape.field(16)] {
        let image = shape.empty_store(bulks, vec![0; shape.store_size(bulks) + room]);
        refuses(&shape.block(), &image, 4);
    }
}

/// The last tier of all is the first to be taken.
#[test]
fn the_tier_of_index_1024() {
    let shape = small(1, 1);
    let length = shape.store_size(1023);
    let mut image = shape.empty_store(1022, vec![0xEE; length]);
    shape.grows(&mut image);
    for (key, tier) in [([1, 2], 1), ([2, 1], 1024), ([3, 1], 2)] {
        assert_eq!(store(&shape.block(), &mut image, &key, &[9; 4]), 0);
        assert_eq!(lookup(&shape.block(), &image, &key).1[2], tier);
    }
}

/// From 255 bulks to 257: bulk count and first free tier, as they are
/// written, and every byte.
#[test]
fn numbers_of_two_bytes() {
    let shape = small(1, 1);
    let length = shape.store_size(257);
    let mut image = shape.empty_store(255, vec![0xEE; length]);
    for (count, first_free) in [([0, 1, 0], [1, 1, 0, 0, 0]), ([1, 1, 0], [2, 1, 0, 0, 0])] {
        shape.grows(&mut image);
        assert_eq!(image[8..11], count);
        assert_eq!(image[11..16], first_free);
    }
    // Tier 258 leads to tier 257 and that to the old head.
    let next = [256, 255].map(|n| shape.extra(n) + 16);
    assert_eq!(image[next[0]..next[0] + 8], [1, 1, 0, 0, 0, 0, 0, 0]);
    assert_eq!(image[next[1]..next[1] + 8], [2, 0, 0, 0, 0, 0, 0, 0]);
    refuses(&shape.block(), &image, 13);
}

pub fn noise(chance: &mut Chance, length: usize) -> Vec<u8> {
    (0..length).map(|_| chance.below(256) as u8).collect()
}

/// Small settings with all kinds of gaps.
pub fn any_shape(chance: &mut Chance) -> Shape {
    let mut below = |limit: u32| chance.below(u64::from(limit)) as u32;
    let (state, segments, header) = (64 * below(3), 1 << below(3), 32 + below(9));
    let (slot, slots) = (4 + 4 * below(2), 4 << below(3));
    let (chunks, chunk) = (1 + below(70), 1 + below(9));
    let lookup = slots * slot + below(9);
    let list = chunks.div_ceil(8) + below(3);
    let space = below(9);
    let tier = lookup + 64 + list + space + chunks * chunk + below(9);
    let (inner, tiers) = (below(9), 1 + below(5));
    let bulk = inner + tiers * tier + below(9);
    let most = 1 + below(chunks.min(64));
    let headers = (state + 33 + below(9)) as usize;
    Shape {
        fields: [
            state, segments, header, slot, slots, 8, 7, lookup, list, space, chunks, chunk, tier,
            inner, tiers, bulk, most,
        ],
        headers,
    }
}

/// Two bulks are added to images of noise, as many as there is room for. Each
/// is refused where one byte is lacking.
#[test]
fn all_kinds_of_settings() {
    let mut chance = Chance(4);
    for _ in 0..300 {
        let shape = any_shape(&mut chance);
        let bulks = chance.below(3);
        let length = shape.store_size(bulks + 2) + chance.below(9);
        let mut image = shape.empty_store(bulks, noise(&mut chance, length));
        let main = shape.field(2) as u64;
        for bulks in [bulks + 1, bulks + 2] {
            refuses(&shape.block(), &image[..shape.store_size(bulks) - 1], 13);
            shape.grows(&mut image);
            let free = (bulks * shape.field(15)) as u64;
            assert_eq!(check(&shape.block(), &image), (0, [0, 0, main, free]));
        }
        refuses(&shape.block(), &image, 13);
    }
}

/// Entries, their places and every lookup are as before.
#[test]
fn the_map_stays() {
    for before in images() {
        let mut image = longer(before.clone(), 200, 0xEE);
        X.grows(&mut image);
        for n in 0..8 {
            assert_eq!(entry(&block(), &image, n), entry(&block(), &before, n));
        }
        for key in [[1, 2], [2, 1], [3, 1], [1, 3], [4, 1], [5, 1], [6, 1]] {
            assert_eq!(
                lookup(&block(), &image, &key),
                lookup(&block(), &before, &key)
            );
        }
        let [entries, marked, chained, free] = check(&block(), &before).1;
        let counts = [entries, marked, chained, free + 1];
        assert_eq!(check(&block(), &image), (0, counts));
        reads_as(&image, &records(&before));
    }
}

impl History {
    /// 10 is left only where there is no room for a bulk either: in a new
    /// tier the entry has its place.
    fn store_or_grow(&mut self, key: [u8; 2], record: Vec<u8>) {
        let mut number = store(&block(), &mut self.image, &key, &record);
        if number == 10 && self.grow() {
            number = store(&block(), &mut self.image, &key, &record);
            assert_eq!(number, 0);
        }
        if number == 0 {
            self.map.insert(key, record);
            return;
        }
        assert_eq!(number, 10);
        self.full += 1;
    }

    /// Whether a bulk was added, which it is wherever there is room for it.
    fn grow(&mut self) -> bool {
        let room = uint(&self.image[25..33]) + 200 <= self.image.len();
        if room {
            X.grows(&mut self.image);
        } else {
            refuses(&block(), &self.image, 13);
        }
        room
    }
}

/// Stores, removals and further bulks, with free tiers left or none, in an
/// image of noise with room for five.
fn run_history(mut chance: Chance) {
    let mut image = one_tier();
    image.extend(noise(&mut chance, 1150));
    let mut history = History {
        image,
        map: Records::new(),
        full: 0,
    };
    for _ in 0..200 {
        let key = [chance.below(40) as u8, 1];
        match chance.below(20) {
            0 => _ = history.grow(),
            1..4 => history.remove(key),
            _ => {
                let record = vec![chance.below(256) as u8; chance.below(29)];
                history.store_or_grow(key, record);
            }
        }
        reads_as(&history.image, &history.map);
    }
    assert_eq!(history.image[8], 5);
    assert!(history.full > 0);
}

#[test]
fn histories_with_further_bulks() {
    for seed in 1..=5 {
        run_history(Chance(seed));
    }
}
