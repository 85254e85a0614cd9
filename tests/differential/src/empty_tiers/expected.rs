//! The image that an edit got, with the links and counters that it must leave.

use super::Links;
use crate::edit::Deed;
use crate::plan::Plan;
use crate::render::{get, put};

impl Links<'_> {
    pub(super) fn expected(&self) -> Vec<u8> {
        let mut image = self.edit.before.to_vec();
        if let Some(tier) = self.sent_home() {
            self.unlink(&mut image, tier);
        }
        if let Some(tier) = self.joined() {
            self.join(&mut image, tier);
        }
        for tier in self.counted() {
            let (left, plan) = (self.edit.left(), self.edit.plan);
            let (at, width) = plan.entry_count_field(tier);
            put(&mut image, at, width, left.full_slots(tier) as u64);
            let (at, width) = plan.lowest_free_field(tier);
            put(&mut image, at, width, left.lowest_clear(tier) as u64);
        }
        image
    }

    /// The tiers that lose or get an entry.
    fn counted(&self) -> Vec<usize> {
        let old = self.old.map(|old| old.tier);
        match self.edit.deed {
            Deed::Removed => old.into_iter().collect(),
            Deed::Placed(to) => old.into_iter().chain([to]).collect(),
            Deed::OnTheSpot(_) => Vec::new(),
        }
    }

    /// The neighbours are joined, later tiers stand one place nearer to the
    /// front, and the tier is the first free one. It keeps its own previous,
    /// segment and order.
    fn unlink(&self, image: &mut [u8], tier: usize) {
        let plan = self.edit.plan;
        let (place, _) = self.place(tier);
        let (previous, later) = (self.chain[place - 1], &self.chain[place + 1..]);
        put_next(plan, image, previous, later.first().copied().unwrap_or(0));
        if let Some(&next) = later.first() {
            put(image, plan.counters(next) + 8, 8, previous as u64);
        }
        for (order, &later) in (place..).zip(later) {
            put(image, plan.counters(later) + 28, 4, order as u64);
        }
        put_next(plan, image, tier, self.edit.got().first_free());
        self.put_free(image, tier, self.used() - 1);
    }

    /// The first free tier stands at the end of the chain.
    fn join(&self, image: &mut [u8], tier: usize) {
        let plan = self.edit.plan;
        let last = self.chain[self.chain.len() - 1];
        let (at, width) = plan.next_field(tier);
        let next_free = get(image, at, width) as usize;
        put_next(plan, image, last, tier);
        put_next(plan, image, tier, 0);
        let counters = plan.counters(tier);
        put(image, counters + 8, 8, last as u64);
        put(image, counters + 24, 4, self.edit.segment as u64);
        put(image, counters + 28, 4, self.chain.len() as u64);
        self.put_free(image, next_free, self.used() + 1);
    }

    fn used(&self) -> u64 {
        get(self.edit.before, self.edit.plan.global_state + 16, 5)
    }

    fn put_free(&self, image: &mut [u8], first: usize, used: u64) {
        let state = self.edit.plan.global_state;
        put(image, state + 11, 5, first as u64);
        put(image, state + 16, 5, used);
    }
}

fn put_next(plan: &Plan, image: &mut [u8], tier: usize, next: usize) {
    let (at, width) = plan.next_field(tier);
    put(image, at, width, next as u64);
}
