//! Where a store must put its entry, found the slow way: every slot, every
//! bit, one after the other. It does not share a line with the reference.

use crate::live::Live;
use crate::model::length_bytes;
use crate::plan::Plan;
use crate::render::get;

pub struct Oracle<'a> {
    pub plan: &'a Plan,
    pub image: &'a [u8],
}

impl Oracle<'_> {
    /// The tiers of a segment, in chain order.
    pub fn chain(&self, segment: usize) -> Vec<usize> {
        let mut chain = Vec::new();
        let mut tier = segment + 1;
        while tier != 0 {
            chain.push(tier);
            let (at, width) = self.plan.next_field(tier);
            tier = get(self.image, at, width) as usize;
        }
        chain
    }

    /// The extra tiers of a segment that have no entry, in chain order.
    pub fn empty_tiers(&self, segment: usize) -> Vec<usize> {
        let mut tiers = self.chain(segment);
        tiers.retain(|&tier| !self.plan.is_main(tier) && self.full_slots(tier) == 0);
        tiers
    }

    /// Tier and first chunk of a new entry, with the old one of its key
    /// (which covers `old_chunks`) taken out. None: nothing has room.
    pub fn place(&self, key: &[u8], chunks: usize, old_chunks: usize) -> Option<(usize, usize)> {
        for tier in self.chain(self.plan.parts(key).0) {
            if let Some(first_chunk) = self.room(tier, key, chunks, old_chunks) {
                return Some((tier, first_chunk));
            }
        }
        match self.first_free() {
            0 => None,
            free => Some((free, 0)),
        }
    }

    /// A tight store of as many chunks would move an entry to an earlier tier.
    pub fn has_earlier_room(&self, entry: &Live) -> bool {
        let place = self.place(entry.key, entry.chunks, entry.chunks);
        place.is_some_and(|(tier, _)| tier != entry.tier)
    }

    pub fn first_free(&self) -> usize {
        get(self.image, self.plan.global_state + 11, 5) as usize
    }

    /// No tier is free, and no chunk of a chained one is clear.
    pub fn is_full(&self) -> bool {
        let mut tiers = (0..self.plan.segments).flat_map(|segment| self.chain(segment));
        self.first_free() == 0
            && tiers.all(|tier| (0..self.plan.chunks).all(|chunk| self.mark(tier, chunk)))
    }

    /// The longest run of clear chunks that a new key of a segment can have
    /// in its chain.
    pub fn longest_run(&self, segment: usize) -> usize {
        let mut tiers = self.chain(segment);
        tiers.retain(|&tier| self.full_slots(tier) + 2 <= self.plan.slots);
        let runs = tiers.into_iter().map(|tier| self.longest_run_in(tier));
        runs.max().unwrap_or(0)
    }

    pub fn full_slots(&self, tier: usize) -> usize {
        let slots = 0..self.plan.slots;
        let number = |slot| get(self.image, self.plan.slot(tier, slot), self.plan.slot_size);
        slots.filter(|&slot| number(slot) != 0).count()
    }

    fn longest_run_in(&self, tier: usize) -> usize {
        let (mut run, mut longest) = (0, 0);
        for chunk in 0..self.plan.chunks {
            run = if self.mark(tier, chunk) { 0 } else { run + 1 };
            longest = longest.max(run);
        }
        longest
    }

    fn room(&self, tier: usize, key: &[u8], chunks: usize, old_chunks: usize) -> Option<usize> {
        let plan = self.plan;
        let mut full = 0;
        let mut marks: Vec<bool> = (0..plan.chunks)
            .map(|chunk| self.mark(tier, chunk))
            .collect();
        for slot in 0..plan.slots {
            let slot = get(self.image, plan.slot(tier, slot), plan.slot_size);
            let first_chunk = (slot >> plan.key_bits) as usize;
            if slot != 0 && self.has_key(tier, first_chunk, key) {
                marks[first_chunk..first_chunk + old_chunks].fill(false);
            } else if slot != 0 {
                full += 1;
            }
        }
        if full + 2 > plan.slots {
            return None;
        }
        marks.windows(chunks).position(|run| !run.contains(&true))
    }

    pub fn low_mark(&self, tier: usize) -> u64 {
        let (at, width) = self.plan.lowest_free_field(tier);
        get(self.image, at, width)
    }

    /// The number of chunks where none is clear.
    pub fn lowest_clear(&self, tier: usize) -> usize {
        let mut chunks = 0..self.plan.chunks;
        let lowest = chunks.find(|&chunk| !self.mark(tier, chunk));
        lowest.unwrap_or(self.plan.chunks)
    }

    pub fn mark(&self, tier: usize, chunk: usize) -> bool {
        self.image[self.plan.list(tier) + chunk / 8] & (1 << (chunk % 8)) != 0
    }

    fn has_key(&self, tier: usize, chunk: usize, key: &[u8]) -> bool {
        let entry = &self.image[self.plan.chunk(tier, chunk)..];
        let length = length_bytes(key.len());
        entry.starts_with(&length) && entry[length.len()..].starts_with(key)
    }
}
