//! From a model to bytes, with junk in every byte that no rule names.

use crate::low_marks;
use crate::model::Model;
use crate::rng::Rng;

pub fn put(image: &mut [u8], at: usize, width: usize, number: u64) {
    if let Some(place) = image.get_mut(at..at + width) {
        place.copy_from_slice(&number.to_le_bytes()[..width]);
    }
}

pub fn get(image: &[u8], at: usize, width: usize) -> u64 {
    let mut bytes = [0; 8];
    bytes[..width].copy_from_slice(&image[at..at + width]);
    u64::from_le_bytes(bytes)
}

impl Model {
    pub fn image(&self, rng: &mut Rng) -> Vec<u8> {
        let plan = &self.plan;
        let mut image = junk(rng, plan.store_size() + plan.bytes_after);
        self.write_global_state(&mut image);
        for (segment, chain) in self.chains.iter().enumerate() {
            self.write_chain(rng, &mut image, segment, chain);
        }
        for (place, &tier) in self.free.iter().enumerate() {
            let next = self.free.get(place + 1).copied().unwrap_or(0);
            put(&mut image, plan.counters(tier), 8, next as u64);
        }
        for tier in 1..=plan.tiers() {
            self.write_slots_and_marks(&mut image, tier);
            self.write_entries(&mut image, tier);
        }
        image
    }

    fn write_global_state(&self, image: &mut [u8]) {
        let plan = &self.plan;
        let state = plan.global_state;
        let first_free = self.free.first().copied().unwrap_or(0);
        let used = self.chained_tiers().len() - plan.segments;
        put(image, state + 8, 3, plan.bulks as u64);
        put(image, state + 11, 5, first_free as u64);
        put(image, state + 16, 5, used as u64);
        put(image, state + 21, 4, plan.headers as u64);
        put(image, state + 25, 8, plan.store_size() as u64);
    }

    fn write_chain(&self, rng: &mut Rng, image: &mut [u8], segment: usize, chain: &[usize]) {
        let plan = &self.plan;
        let mut previous = 0;
        for (order, &tier) in chain.iter().enumerate() {
            let counters = plan.counters(tier);
            put(image, counters + 8, 8, previous as u64);
            put(image, counters + 24, 4, segment as u64);
            put(image, counters + 28, 4, order as u64);
            let next = chain.get(order + 1).copied().unwrap_or(0);
            let low_mark = low_marks::drawn(rng, self.lowest_clear(tier), plan.chunks);
            for ((at, width), number) in [
                (plan.next_field(tier), next),
                (plan.lowest_free_field(tier), low_mark),
                (plan.entry_count_field(tier), self.tiers[tier].len()),
            ] {
                put(image, at, width, number as u64);
            }
            previous = tier;
        }
    }

    fn write_slots_and_marks(&self, image: &mut [u8], tier: usize) {
        let plan = &self.plan;
        image[plan.tier(tier)..plan.slot(tier, plan.slots)].fill(0);
        for placed in &self.tiers[tier] {
            put(
                image,
                plan.slot(tier, placed.slot),
                plan.slot_size,
                placed.slot_value,
            );
        }
        for (chunk, mark) in self.marks(tier).into_iter().enumerate() {
            let byte = &mut image[plan.list(tier) + chunk / 8];
            *byte = *byte & !(1 << (chunk % 8)) | u8::from(mark) << (chunk % 8);
        }
    }

    /// An entry that runs past the tier is cut there.
    fn write_entries(&self, image: &mut [u8], tier: usize) {
        let plan = &self.plan;
        let end = plan.tier(tier) + plan.tier_size;
        for placed in &self.tiers[tier] {
            let start = plan.chunk(tier, placed.first_chunk);
            let length = placed.bytes.len().min(end - start);
            image[start..start + length].copy_from_slice(&placed.bytes[..length]);
        }
    }
}

fn junk(rng: &mut Rng, length: usize) -> Vec<u8> {
    match rng.below(6) {
        0 => vec![0; length],
        1 => vec![0xFF; length],
        _ => rng.bytes(length),
    }
}
