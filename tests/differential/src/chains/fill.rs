//! Tiers filled quickly: each entry in the next chunks and in the first empty
//! slot from its start.

use super::keys::Keys;
use crate::model::Model;
use crate::plan::Plan;
use crate::rng::Rng;

/// The entries that each tier of a chain shall get.
pub fn wished(rng: &mut Rng, slots: usize, tiers: usize) -> Vec<usize> {
    let most = slots - 1;
    let style = rng.below(10);
    if style > 7 {
        let entries = near_a_power(rng, most * tiers);
        return exactly(rng, entries, slots, tiers);
    }
    let some = [0, 1, slots / 2, most - 1, most];
    let tier = |_| match style {
        0..3 => most,
        3 => rng.below(3),
        4 | 5 => *rng.pick(&some),
        _ => rng.between(0, most),
    };
    (0..tiers).map(tier).collect()
}

/// So many entries in all, in as few tiers as have room.
pub fn exactly(rng: &mut Rng, entries: usize, slots: usize, tiers: usize) -> Vec<usize> {
    let mut wished = vec![0; tiers];
    let mut order: Vec<usize> = (0..tiers).collect();
    rng.shuffle(&mut order);
    let mut left = entries;
    for tier in order {
        wished[tier] = left.min(slots - 1);
        left -= wished[tier];
    }
    wished
}

/// A power of two that there is room for, or three quarters of one, or one
/// more or less than these.
fn near_a_power(rng: &mut Rng, most: usize) -> usize {
    let power = 1 << (most.ilog2() as usize).saturating_sub(rng.below(3));
    let size = *rng.pick(&[power, power + power / 2]);
    (size + rng.below(3) - 1).min(most)
}

/// A tier that is not filled yet.
struct Room {
    tier: usize,
    left: usize,
    next_chunk: usize,
    gaps: Gaps,
}

/// By slot: itself if it is empty, or a later one from which to go on.
struct Gaps(Vec<usize>);

impl Gaps {
    /// Fills the first empty slot from a start; another one must be empty.
    fn take(&mut self, start: usize) -> usize {
        let mut slot = start;
        while self.0[slot] != slot {
            self.0[slot] = self.0[self.0[slot]];
            slot = self.0[slot];
        }
        self.0[slot] = (slot + 1) % self.0.len();
        slot
    }
}

impl Room {
    fn new(plan: &Plan, tier: usize, left: usize) -> Room {
        Room {
            tier,
            left,
            next_chunk: 0,
            gaps: Gaps((0..plan.slots).collect()),
        }
    }

    /// Leaves chunks clear where there are some to spare.
    fn skip(&mut self, rng: &mut Rng, plan: &Plan) {
        if plan.chunks - self.next_chunk > 4 * self.left && rng.percent(20) {
            self.next_chunk += 1;
        }
    }
}

/// A store whose chains have so many entries in each tier, as far as keys and
/// chunks last.
pub fn filled(rng: &mut Rng, plan: &Plan, keys: &mut Keys, wished: &[Vec<usize>]) -> Model {
    let mut model = Model::empty(rng, plan);
    let wished = wished.iter().enumerate();
    let rooms = wished.map(|(segment, wished)| rooms(&mut model, segment, wished));
    let mut rooms: Vec<Vec<Room>> = rooms.collect();
    let mut tries = 8 * rooms.iter().flatten().map(|room| room.left).sum::<usize>();
    while tries > 0 && rooms.iter().any(|rooms| !rooms.is_empty()) {
        tries -= 1;
        let Some(key) = keys.next(rng) else { break };
        let rooms = &mut rooms[plan.parts(&key).0];
        if !rooms.is_empty() {
            let any = rng.below(rooms.len());
            if put(rng, &mut model, &mut rooms[any], &key).is_none() {
                rooms.swap_remove(any);
            }
        }
    }
    model
}

/// The tiers of a chain, which is made as long, that shall get entries.
fn rooms(model: &mut Model, segment: usize, wished: &[usize]) -> Vec<Room> {
    wished[1..].iter().for_each(|_| model.grow(segment));
    let tiers = model.chains[segment].iter().zip(wished);
    let tiers = tiers.filter(|(_, left)| **left > 0);
    tiers
        .map(|(&tier, &left)| Room::new(&model.plan, tier, left))
        .collect()
}

/// None if the tier takes no further entry.
fn put(rng: &mut Rng, model: &mut Model, room: &mut Room, key: &[u8]) -> Option<()> {
    room.skip(rng, &model.plan);
    let length = rng.below(6);
    let value = rng.bytes(length);
    let left = model.plan.chunks - room.next_chunk;
    let mut draft = model.draft(key, &value);
    if draft.chunks > model.plan.most_chunks.min(left) {
        draft = model.draft(key, &[]);
    }
    if draft.chunks > left {
        return None;
    }
    let slot = room.gaps.take(model.plan.start(draft.lookup_key));
    let chunk = room.next_chunk;
    room.next_chunk += draft.chunks;
    model.place_at(room.tier, slot, chunk, draft)?;
    room.left -= 1;
    (room.left > 0).then_some(())
}
