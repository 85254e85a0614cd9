//! One bulk more: what it must leave, worked out byte by byte apart from the
//! reference.

mod events;

pub use events::{Course, full_before, planned};

use std::ops::RangeInclusive;

use crate::compare::{Outcome, Pair, difference};
use crate::live;
use crate::oracle::Oracle;
use crate::plan::Plan;
use crate::render::put;

/// The call on an accepted image of a plan, which then has the bulk too.
pub fn add(plan: &mut Plan, pair: &mut Pair) -> Outcome<u32> {
    let length = pair.image().len();
    let expected = if plan.lacks(length) == (0, 0) { 0 } else { 13 };
    let number = pair.grow()?;
    if number != expected {
        return Err(format!("grow: both answer {number}, meant was {expected}"));
    }
    let events = if number == 0 {
        let growth = Growth {
            old: plan,
            new: plan.with_one_more_bulk(),
            before: pair.before(),
            after: pair.image(),
        };
        let events = growth.is_right()?;
        *plan = growth.new;
        events
    } else {
        events::no_bulk(plan, length)
    };
    events.into_iter().for_each(|event| pair.met(event));
    Ok(number)
}

/// A call that was answered 0.
struct Growth<'a> {
    old: &'a Plan,
    new: Plan,
    before: &'a [u8],
    after: &'a [u8],
}

impl Growth<'_> {
    /// Every byte is as it should be, and every entry as and where it was.
    /// Answers what came up.
    fn is_right(&self) -> Outcome<Vec<String>> {
        let expected = self.expected();
        if let Some(at) = difference(&expected, self.after) {
            let (byte, expected) = (self.after[at], expected[at]);
            return Err(format!(
                "grow: byte {at} is {byte} by both, meant was {expected}"
            ));
        }
        if live::entries(self.old, self.before) != live::entries(&self.new, self.after) {
            return Err("grow: the entries are not as they were".to_string());
        }
        Ok(self.events())
    }

    fn expected(&self) -> Vec<u8> {
        let (plan, mut image) = (&self.new, self.before.to_vec());
        let (first, last) = self.new_tiers().into_inner();
        for tier in first..=last {
            let next = if tier == last {
                self.old_head()
            } else {
                tier + 1
            };
            let counters = plan.counters(tier);
            image[plan.slot(tier, 0)..plan.slot(tier, plan.slots)].fill(0);
            put(&mut image, counters, 8, next as u64);
            image[counters + 8..counters + 36].fill(0);
            for chunk in 0..plan.chunks {
                image[plan.list(tier) + chunk / 8] &= !(1 << (chunk % 8));
            }
        }
        let state = plan.global_state;
        put(&mut image, state + 8, 3, plan.bulks as u64);
        put(&mut image, state + 11, 5, first as u64);
        put(&mut image, state + 25, 8, plan.store_size() as u64);
        image
    }

    fn new_tiers(&self) -> RangeInclusive<usize> {
        self.old.tiers() + 1..=self.new.tiers()
    }

    fn old_head(&self) -> usize {
        let oracle = Oracle {
            plan: self.old,
            image: self.before,
        };
        oracle.first_free()
    }
}
