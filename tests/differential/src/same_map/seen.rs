//! In what two stores of one map differ, read from their bytes: before the
//! list, and by a call that both have answered alike.

use std::cmp::Ordering;

use super::answers::{Answer, Call};
use super::build::Store;
use super::events::{ABSENT, EDITS, FOUND, SIZES, STORES, absent, edited, found, put, stores};
use crate::live;
use crate::oracle::Oracle;
use crate::plan::Plan;
use crate::tally::came;

/// What of an image the events of stores compare.
struct Shape {
    length: usize,
    chains: Vec<usize>,
    empty_tiers: usize,
    lags: bool,
    keys: Vec<Vec<u8>>,
}

impl Shape {
    fn of(store: &Store) -> Shape {
        let (plan, image) = (&store.plan, &store.image[..]);
        let oracle = Oracle { plan, image };
        let chains = (0..plan.segments).map(|segment| oracle.chain(segment));
        let chains: Vec<Vec<usize>> = chains.collect();
        let mut tiers = chains.iter().flatten();
        let empty = (0..plan.segments).map(|segment| oracle.empty_tiers(segment).len());
        let entries = live::entries(plan, image).into_iter();
        Shape {
            length: image.len(),
            chains: chains.iter().map(Vec::len).collect(),
            empty_tiers: empty.sum(),
            lags: tiers.any(|&tier| oracle.low_mark(tier) < oracle.lowest_clear(tier) as u64),
            keys: entries.map(|entry| entry.key.to_vec()).collect(),
        }
    }

    fn free_tiers(&self, plan: &Plan) -> usize {
        plan.tiers() - self.chains.iter().sum::<usize>()
    }
}

pub fn of_stores([one, other]: &[Store; 2]) -> Vec<String> {
    let (a, b) = (Shape::of(one), Shape::of(other));
    let by_calls = (one.by_calls, other.by_calls);
    let events = [
        a.length != b.length,
        one.plan.bulks != other.plan.bulks,
        one.plan.headers != other.plan.headers,
        a.chains != b.chains,
        a.free_tiers(&one.plan) != b.free_tiers(&other.plan),
        (a.empty_tiers == 0) != (b.empty_tiers == 0),
        a.lags != b.lags,
        a.keys != b.keys,
        by_calls == (false, false),
        by_calls == (false, true),
        by_calls == (true, false),
        by_calls == (true, true),
    ];
    came(STORES, events, stores)
}

/// Where the two lookups of one key ended.
pub fn of_lookup(plans: [&Plan; 2], answers: &[Answer; 2]) -> Vec<String> {
    let [Some(one), Some(other)] = [answers[0].place, answers[1].place] else {
        return Vec::new();
    };
    let [offset, _, tier, slot] = [0, 1, 2, 3].map(|field: usize| one[field] != other[field]);
    let [main, other_main] =
        [(plans[0], one), (plans[1], other)].map(|(plan, place)| plan.is_main(place[2] as usize));
    match answers[0].number {
        0 => came(FOUND, [offset, tier, main != other_main, slot], found),
        1 => came(ABSENT, [tier, slot], absent),
        _ => Vec::new(),
    }
}

/// An edit in one of the stores.
struct Edited {
    /// The chunks of the key's entry before and after.
    chunks: [Option<usize>; 2],
    /// A replacement that went to another tier.
    moved: bool,
    /// How the chain of its segment has changed.
    chain: Ordering,
}

impl Edited {
    fn of(plan: &Plan, images: [&[u8]; 2], key: &[u8]) -> Edited {
        let entries = images.map(|image| live::entry_of(plan, image, key));
        let segment = plan.parts(key).0;
        let [before, after] = images.map(|image| Oracle { plan, image }.chain(segment).len());
        let [old, new] = entries.map(|entry| entry.map(|entry| entry.tier));
        Edited {
            chunks: entries.map(|entry| entry.map(|entry| entry.chunks)),
            moved: old.is_some() && new.is_some() && old != new,
            chain: after.cmp(&before),
        }
    }

    fn is_removal(&self) -> bool {
        self.chunks[1].is_none()
    }
}

/// An edit that both have answered 0, with the images before and after it.
pub fn of_edit(call: &Call, sides: [(&Plan, [&[u8]; 2]); 2]) -> Vec<String> {
    let key = call.key();
    let [one, other] = sides.map(|(plan, images)| Edited::of(plan, images, &key));
    let removal = one.is_removal();
    let alone = |what: Ordering| (one.chain == what) != (other.chain == what);
    let events = [
        removal && alone(Ordering::Less),
        !removal && alone(Ordering::Less),
        one.moved != other.moved,
        alone(Ordering::Greater),
    ];
    let mut events = came(EDITS, events, edited);
    if let [old, Some(new)] = one.chunks {
        let size = match old.map(|old| new.cmp(&old)) {
            None => 0,
            Some(Ordering::Less) => 1,
            Some(Ordering::Equal) => 2,
            Some(Ordering::Greater) => 3,
        };
        events.push(put(call.name(), SIZES[size]));
    }
    events
}
