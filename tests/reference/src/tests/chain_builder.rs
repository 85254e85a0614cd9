//! Images with any keys in any slots of their chains, made without a call of
//! the library. Marks, counts and links are those that belong to the entries.

use super::worked_store::block_of;
use crate::{check, xxh64};

const HEADERS: usize = 64;
const HEADER_SIZE: usize = 32;
const CHUNK_SIZE: usize = 24;
const CHUNK_BITS: u32 = 12;

pub type Key = Vec<u8>;

/// The full slots of a tier with their keys. The entries stand in the chunks
/// from 0 on in this order, without a value.
pub type Entries = Vec<(usize, Key)>;

/// The tiers of a segment, in chain order.
pub type Tiers = Vec<Entries>;

#[derive(Clone, Copy, Debug)]
pub struct Shape {
    pub segments: usize,
    /// Each tier has as many chunks.
    pub slots: usize,
    pub key_bits: u32,
}

/// One segment.
pub fn shape(slots: usize, key_bits: u32) -> Shape {
    Shape {
        segments: 1,
        slots,
        key_bits,
    }
}

impl Shape {
    /// Both sizes of a slot are tried, by the key bits.
    fn slot_size(&self) -> usize {
        if self.key_bits + CHUNK_BITS <= 32 {
            4
        } else {
            8
        }
    }

    fn tier_size(&self) -> usize {
        self.slots * (self.slot_size() + CHUNK_SIZE) + 64 + self.slots.div_ceil(8)
    }

    fn tier_start(&self, index: usize) -> usize {
        HEADERS + self.segments * HEADER_SIZE + (index - 1) * self.tier_size()
    }

    pub fn block(&self) -> Vec<u8> {
        let [
            segments,
            slots,
            header_size,
            slot_size,
            chunk_size,
            tier_size,
        ] = [
            self.segments,
            self.slots,
            HEADER_SIZE,
            self.slot_size(),
            CHUNK_SIZE,
            self.tier_size(),
        ]
        .map(|number| number as u32);
        block_of([
            0,
            segments,
            header_size,
            slot_size,
            slots,
            self.key_bits,
            CHUNK_BITS,
            slots * slot_size,
            slots.div_ceil(8),
            0,
            slots,
            chunk_size,
            tier_size,
            0,
            1,
            tier_size,
            1,
        ])
    }

    pub fn segment(&self, key: &[u8]) -> usize {
        xxh64(key) as usize % self.segments
    }

    pub fn lookup_key(&self, key: &[u8]) -> u64 {
        let wide = 1 << self.key_bits;
        match xxh64(key) / self.segments as u64 % wide {
            0 => wide - 1,
            part => part,
        }
    }

    pub fn start(&self, key: &[u8]) -> usize {
        self.lookup_key(key) as usize % self.slots
    }

    /// Keys of four bytes, all different.
    pub fn keys_of(self, segment: usize) -> impl Iterator<Item = Key> {
        let keys = (0u32..).map(|number| number.to_le_bytes().to_vec());
        keys.filter(move |key| self.segment(key) == segment)
    }

    pub fn keys(self) -> impl Iterator<Item = Key> {
        self.keys_of(0)
    }

    /// Each key in the first empty slot from its start.
    pub fn placed(&self, keys: impl IntoIterator<Item = Key>) -> Entries {
        let mut full = vec![false; self.slots];
        let mut entries = Entries::new();
        for key in keys {
            let start = self.start(&key);
            let mut places = (start..self.slots).chain(0..start);
            let place = places.find(|place| !full[*place]).unwrap();
            full[place] = true;
            entries.push((place, key));
        }
        entries
    }

    /// A chain with so many entries in each tier.
    pub fn tiers(&self, keys: impl IntoIterator<Item = Key>, tiers: usize, each: usize) -> Tiers {
        let mut keys = keys.into_iter();
        let tier = |_| self.placed(keys.by_ref().take(each));
        (0..tiers).map(tier).collect()
    }

    /// The extra tiers of a chain come after those of the segments before.
    pub fn image(&self, chains: &[Tiers]) -> Vec<u8> {
        let extra = chains.iter().map(|tiers| tiers.len() - 1).sum::<usize>();
        let size = self.tier_start(self.segments + extra + 1);
        let mut image = vec![0; size];
        put(&mut image, 8, 3, extra);
        put(&mut image, 16, 5, extra);
        put(&mut image, 21, 4, HEADERS);
        put(&mut image, 25, 8, size);
        let mut next = self.segments + 1;
        for (segment, tiers) in chains.iter().enumerate() {
            let end = next + tiers.len() - 1;
            let indexes: Vec<usize> = [segment + 1].into_iter().chain(next..end).collect();
            self.fill_chain(&mut image, segment, &indexes, tiers);
            next = end;
        }
        image
    }

    fn fill_chain(&self, image: &mut [u8], segment: usize, indexes: &[usize], tiers: &Tiers) {
        for (order, &index) in indexes.iter().enumerate() {
            let counters = self.counters(index);
            let previous = order.checked_sub(1).map_or(0, |before| indexes[before]);
            let next = indexes.get(order + 1).copied().unwrap_or(0);
            let next_at = self.header(index).map_or(counters, |header| header + 16);
            put(image, next_at, 8, next);
            put(image, counters + 8, 8, previous);
            put(image, counters + 24, 4, segment);
            put(image, counters + 28, 4, order);
            self.fill(image, index, &tiers[order]);
        }
    }

    fn fill(&self, image: &mut [u8], index: usize, entries: &Entries) {
        let counters = self.counters(index);
        let (mark_at, width) = self
            .header(index)
            .map_or((counters + 16, 8), |header| (header + 12, 4));
        put(image, mark_at, width, entries.len());
        put(image, self.count_at(index), 4, entries.len());
        let list = counters + 64;
        let space = list + self.slots.div_ceil(8);
        for (chunk, (place, key)) in entries.iter().enumerate() {
            let slot = self.lookup_key(key) | (chunk as u64) << self.key_bits;
            let size = self.slot_size();
            put(image, self.slot_at(index, *place), size, slot as usize);
            image[list + chunk / 8] |= 1 << (chunk % 8);
            let at = space + chunk * CHUNK_SIZE;
            image[at] = key.len() as u8;
            image[at + 1..at + 1 + key.len()].copy_from_slice(key);
        }
    }

    fn header(&self, index: usize) -> Option<usize> {
        (index <= self.segments).then(|| HEADERS + (index - 1) * HEADER_SIZE)
    }

    fn counters(&self, index: usize) -> usize {
        self.tier_start(index) + self.slots * self.slot_size()
    }

    pub fn slot_at(&self, index: usize, place: usize) -> usize {
        self.tier_start(index) + place * self.slot_size()
    }

    /// Where the entry count of a tier stands.
    pub fn count_at(&self, index: usize) -> usize {
        self.header(index)
            .map_or(self.counters(index) + 32, |header| header + 8)
    }

    /// What the check answers to one chain. Of an accepted one it counts the
    /// entries.
    #[track_caller]
    pub fn checks(&self, tiers: &Tiers, number: u32) {
        let image = self.image(std::slice::from_ref(tiers));
        let (answered, [entries, ..]) = check(&self.block(), &image);
        assert_eq!(answered, number, "{self:?}");
        let stored = tiers.iter().map(|tier| tier.len() as u64).sum::<u64>();
        assert_eq!(entries, if number == 0 { stored } else { 0 });
    }
}

fn put(image: &mut [u8], at: usize, width: usize, number: usize) {
    image[at..at + width].copy_from_slice(&number.to_le_bytes()[..width]);
}
