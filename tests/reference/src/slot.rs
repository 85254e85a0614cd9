//! Slots of a hash lookup: their bits, their search order, and the parts of
//! a key's hash that choose them.

use crate::bytes::{put_uint, u32_at, u64_at};
use crate::settings::Settings;
use crate::tier::Tier;

/// What the hash of a key says about its place.
#[derive(Clone, Copy, Debug)]
pub struct HashParts {
    pub segment: usize,
    pub lookup_key: u64,
}

impl Settings {
    pub fn hash_parts(&self, key: &[u8]) -> HashParts {
        let hash = crate::hash::xxh64(key);
        let ones = self.lookup_key_mask();
        let part = (hash >> self.segments.trailing_zeros()) & ones;
        HashParts {
            segment: hash as usize & (self.segments - 1),
            // A part of 0 would let a slot with chunk 0 look empty.
            lookup_key: if part == 0 { ones } else { part },
        }
    }

    /// A key's hash without the bits that choose the segment, which all keys
    /// of a chain share.
    pub fn chain_hash(&self, key: &[u8]) -> u64 {
        crate::hash::xxh64(key) >> self.segments.trailing_zeros()
    }

    pub fn lookup_key_mask(&self) -> u64 {
        (1 << self.key_bits) - 1
    }

    pub fn start_slot(&self, lookup_key: u64) -> usize {
        lookup_key as usize & (self.slots - 1)
    }

    pub fn next_slot(&self, slot: usize) -> usize {
        (slot + 1) & (self.slots - 1)
    }

    /// Steps upward from one slot to another, wrapping.
    pub fn slot_distance(&self, from: usize, to: usize) -> usize {
        to.wrapping_sub(from) & (self.slots - 1)
    }

    pub fn lookup_key(&self, slot: u64) -> u64 {
        slot & self.lookup_key_mask()
    }

    /// The number above the lookup key. Only for a checked slot is it a
    /// chunk: an unchecked one may have bits beyond the chunk index.
    pub fn first_chunk(&self, slot: u64) -> u64 {
        slot >> self.key_bits
    }

    /// The chunk that any slot names, whatever its bits above.
    pub fn named_chunk(&self, slot: u64) -> u64 {
        (slot >> self.key_bits) & ((1 << self.chunk_bits) - 1)
    }

    pub fn join_slot(&self, lookup_key: u64, first_chunk: usize) -> u64 {
        lookup_key | (first_chunk as u64) << self.key_bits
    }

    pub fn slot_at(&self, image: &[u8], tier: &Tier, slot: usize) -> u64 {
        if self.slot_size == 4 {
            u64::from(u32_at(image, tier.slots + 4 * slot))
        } else {
            u64_at(image, tier.slots + 8 * slot)
        }
    }

    pub fn set_slot(&self, image: &mut [u8], tier: &Tier, slot: usize, value: u64) {
        let size = self.slot_size;
        put_uint(image, tier.slots + size * slot, size, value);
    }
}
