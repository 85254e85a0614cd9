//! Settings for full chains: few segments, and room in each tier for as many
//! entries as it has slots.

use super::keys::Lengths;
use crate::plan::Plan;
use crate::rng::Rng;
use crate::settings::{Size, gap};

#[derive(Clone, Copy)]
pub enum KeyBits {
    Exactly(usize),
    /// As many as the slots have room for.
    Most,
}

pub struct Shape {
    pub slots: usize,
    pub slot_size: usize,
    /// The tiers of each segment's chain.
    pub chains: Vec<usize>,
    pub key_bits: KeyBits,
    pub lengths: Lengths,
    pub chunks: usize,
    pub chunk_size: usize,
}

impl Shape {
    pub fn random(rng: &mut Rng) -> Shape {
        let slots = match rng.below(1000) {
            0..3 => 4096,
            3..13 => 512,
            13..25 => 1 << rng.between(7, 11),
            _ => 1 << rng.between(2, 6),
        };
        let lengths = match rng.below(100) {
            0..55 => Lengths::Short,
            55..93 => Lengths::Middle,
            _ => Lengths::Long,
        };
        let mut shape = Shape {
            slots,
            slot_size: *rng.pick(&[4, 8]),
            chains: Shape::chains(rng, slots),
            key_bits: Shape::key_bits(rng),
            lengths,
            chunks: 0,
            chunk_size: 0,
        };
        shape.draw_chunks(rng);
        shape
    }

    /// Of entries that take one chunk each, and that are many.
    pub fn large(slots: usize, chains: Vec<usize>, key_bits: usize) -> Shape {
        Shape {
            slots,
            slot_size: 8,
            chains,
            key_bits: KeyBits::Exactly(key_bits),
            lengths: Lengths::Short,
            chunks: slots,
            chunk_size: 16,
        }
    }

    fn chains(rng: &mut Rng, slots: usize) -> Vec<usize> {
        let (segments, most) = match slots {
            0..65 => (*rng.pick(&[1, 1, 1, 1, 1, 2, 2, 4]), 12),
            65..513 => (1, 12),
            _ => (1, 2),
        };
        let length = |_| match rng.below(10) {
            0..2 => 1,
            2..4 => most,
            _ => rng.between(1, most),
        };
        (0..segments).map(length).collect()
    }

    fn key_bits(rng: &mut Rng) -> KeyBits {
        match rng.below(10) {
            0 => KeyBits::Exactly(1),
            1 => KeyBits::Exactly(2),
            2 => KeyBits::Exactly(3),
            3 => KeyBits::Exactly(8),
            4 | 5 => KeyBits::Most,
            _ => KeyBits::Exactly(rng.between(1, 56)),
        }
    }

    /// Short entries take a chunk each, and the others may take several.
    fn draw_chunks(&mut self, rng: &mut Rng) {
        if self.lengths == Lengths::Long {
            self.slots = self.slots.min(8);
            self.chains.truncate(1);
            self.chains[0] = self.chains[0].min(6);
        }
        let least = self.slots - 1;
        (self.chunks, self.chunk_size) = match self.lengths {
            Lengths::Short => (least + rng.below(self.slots), rng.between(16, 24)),
            Lengths::Middle => (4 * self.slots, rng.between(10, 36)),
            Lengths::Long => (12 * self.slots, rng.between(90, 200)),
        };
        self.chunks = self.chunks.min(4096);
    }

    pub fn plan(&self, rng: &mut Rng) -> Plan {
        let mut plan = Plan {
            segments: self.chains.len(),
            slot_size: self.slot_size,
            slots: self.slots,
            chunks: self.chunks,
            chunk_size: self.chunk_size,
            most_chunks: self.chunks.min(64),
            ..Plan::random(rng, Size::Tiny)
        };
        plan.lookup_size = plan.slots * plan.slot_size + gap(rng, 80);
        plan.list_size = plan.chunks.div_ceil(8) + gap(rng, 20);
        let space = plan.space_offset + plan.chunks * plan.chunk_size;
        plan.tier_size = plan.lookup_size + 64 + plan.list_size + space + gap(rng, 100);
        let extra = self.chains.iter().sum::<usize>() - self.chains.len();
        plan.bulk_tiers = rng.between(1, 5);
        plan.bulks = extra.div_ceil(plan.bulk_tiers) + rng.below(2);
        plan.bulk_size = plan.bulk_offset + plan.bulk_tiers * plan.tier_size + gap(rng, 90);
        plan.bytes_after = gap(rng, 200);
        self.draw_bits(rng, &mut plan);
        plan
    }

    fn draw_bits(&self, rng: &mut Rng, plan: &mut Plan) {
        plan.key_bits = match self.key_bits {
            KeyBits::Exactly(bits) => bits.min(plan.most_key_bits()),
            KeyBits::Most => plan.most_key_bits(),
        };
        let least = plan.least_chunk_bits();
        let most = 32.min(8 * plan.slot_size - plan.key_bits);
        let any = rng.between(least, most);
        plan.chunk_bits = *rng.pick(&[least, most, any]);
    }
}

impl Plan {
    fn least_chunk_bits(&self) -> usize {
        (usize::BITS - (self.chunks - 1).leading_zeros()).max(1) as usize
    }

    pub fn most_key_bits(&self) -> usize {
        56.min(8 * self.slot_size - self.least_chunk_bits())
    }
}
