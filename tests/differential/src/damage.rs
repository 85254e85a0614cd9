//! Rendered images damaged in one field, bit or length.
//!
//! Each answers the number that an otherwise accepted image must get (0: it
//! stays accepted; `Unknown`: whatever both say), or None if it found
//! nothing to damage.

mod chains;
mod chunks;
mod frame;
mod slots;
pub mod walk;

pub use walk::WALK_DAMAGES;

use crate::model::Model;
use crate::render::{get, put};
use crate::rng::Rng;

#[derive(Clone, Copy, Debug, PartialEq)]
pub enum Verdict {
    Is(u32),
    Unknown,
}

pub struct Scene<'a> {
    pub rng: &'a mut Rng,
    pub model: &'a Model,
    pub image: &'a mut Vec<u8>,
}

pub type Damage = fn(&mut Scene) -> Option<Verdict>;

/// So many come first that damage the frame.
pub const FRAME_DAMAGES: usize = 5;

pub const DAMAGES: [(&str, Damage); 29] = [
    ("store size", frame::store_size),
    ("headers offset", frame::headers_offset),
    ("headers over the state", frame::headers_too_low),
    ("bulk count", frame::bulk_count),
    ("image cut", frame::image_cut),
    ("main tier's standing", chains::main_standing),
    ("extra tier's standing", chains::extra_standing),
    ("a link", chains::link),
    ("a link's high byte", chains::link_high_byte),
    ("used count", chains::used_count),
    ("a chained tier in the free chain", chains::shared_tail),
    ("bits above a slot", slots::slot_high_bits),
    ("a lookup key bit", slots::slot_key_bit),
    ("a chunk past the last", slots::slot_chunk_past),
    ("another chunk", slots::slot_other_chunk),
    ("an emptied slot", slots::slot_emptied),
    ("slots swapped", slots::slots_swapped),
    ("a key byte", slots::key_byte),
    ("a key length", slots::key_length),
    ("an entry byte", slots::entry_byte),
    ("a chunk's bit", chunks::chunk_bit),
    ("a bit behind the last chunk", chunks::bit_behind),
    ("a full slot in a free tier", chunks::free_tier_slot),
    ("entry count", chunks::entry_count),
    ("a low mark that lags", chunks::low_mark_lags),
    ("a full tier's low mark that lags", chunks::full_mark_lags),
    ("a low mark too high", chunks::low_mark_high),
    ("a dead field of a main tier", chunks::dead_field),
    ("an unnamed byte", chunks::unnamed_byte),
];

impl Scene<'_> {
    fn flip(&mut self, at: usize, width: usize) {
        let bit = self.rng.below(8 * width);
        if let Some(byte) = self.image.get_mut(at + bit / 8) {
            *byte ^= 1 << (bit % 8);
        }
    }

    /// Another number in a field: a neighbour, a flipped bit or any.
    fn change(&mut self, at: usize, width: usize) {
        let before = get(self.image, at, width);
        let (other, low) = (self.rng.next(), self.rng.below(6) as u64);
        match self.rng.below(5) {
            0 => put(self.image, at, width, before.wrapping_add(1)),
            1 => put(self.image, at, width, before.wrapping_sub(1)),
            2 => put(self.image, at, width, other),
            3 => put(self.image, at, width, low),
            _ => {}
        }
        if get(self.image, at, width) == before {
            self.flip(at, width);
        }
    }

    fn chained_tier(&mut self) -> usize {
        *self.rng.pick(&self.model.chained_tiers())
    }

    /// A chained tier that is full, or one that is not.
    fn chained_filled(&mut self, full: bool) -> Option<usize> {
        let chunks = self.model.plan.chunks;
        let mut tiers = self.model.chained_tiers();
        tiers.retain(|&tier| (self.model.lowest_clear(tier) == chunks) == full);
        (!tiers.is_empty()).then(|| *self.rng.pick(&tiers))
    }

    fn extra_chained(&mut self) -> Option<usize> {
        let mut tiers = self.model.chained_tiers();
        tiers.retain(|&tier| !self.model.plan.is_main(tier));
        (!tiers.is_empty()).then(|| *self.rng.pick(&tiers))
    }

    /// A tier and one of its entries.
    fn entry(&mut self) -> Option<(usize, usize)> {
        let mut tiers = self.model.chained_tiers();
        tiers.retain(|&tier| !self.model.tiers[tier].is_empty());
        if tiers.is_empty() {
            return None;
        }
        let tier = *self.rng.pick(&tiers);
        Some((tier, self.rng.below(self.model.tiers[tier].len())))
    }

    /// Offset and number of a full slot.
    fn full_slot(&mut self) -> Option<(usize, u64)> {
        let (tier, place) = self.entry()?;
        let placed = &self.model.tiers[tier][place];
        Some((self.model.plan.slot(tier, placed.slot), placed.slot_value))
    }

    fn state(&self) -> usize {
        self.model.plan.global_state
    }
}
