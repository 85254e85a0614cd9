//! Damage on the way to a key: in what a walk tests, and next to it. What the
//! check says of it is whatever both say.

mod entries;
mod links;
mod slots;

use super::Scene;
use crate::draw;
use crate::model::{Model, Placed};
use crate::plan::Plan;
use crate::render::put;
use crate::rng::Rng;

/// The key whose way is damaged; it need not be there.
pub struct Target {
    key: Vec<u8>,
    segment: usize,
    lookup_key: u64,
}

/// None if it found nothing to damage.
pub type WalkDamage = fn(&mut Scene, &Target) -> Option<()>;

/// It takes a tier with room for more than 65,536 bytes.
pub const LONG_VALUE: (&str, WalkDamage) = ("a value length of 65,536", entries::value_long);

pub const WALK_DAMAGES: [(&str, WalkDamage); 29] = [
    LONG_VALUE,
    ("a slot with chunk N", entries::chunk_n),
    ("a slot with a chunk above N", entries::chunk_above),
    ("a key length with a byte more", entries::key_form),
    ("a key length of 0", entries::key_empty),
    ("a key length of 1,025", entries::key_long),
    ("a key out of the chunks", entries::key_out),
    ("a key up to the chunks' end", entries::key_to_end),
    ("a length cut by the chunks' end", entries::length_cut),
    ("a value length with a byte more", entries::value_form),
    ("a value up to the chunks' end", entries::value_to_end),
    ("a value one past the chunks", entries::value_one_past),
    ("a value further past the chunks", entries::value_past),
    ("a value of too many chunks", entries::value_of_many),
    ("bits above the chunk's", slots::high_bits),
    ("no empty slot", slots::full),
    ("the key in the last of C slots", slots::last_of_full),
    ("a slot that names another entry", slots::other_entry),
    ("a broken entry of another lookup key", slots::broken_other),
    ("a next that is a main tier", links::main),
    ("a next past the tiers", links::past),
    ("a next's high byte", links::high_byte),
    ("a tier that leads to itself", links::itself),
    ("extra tiers in a circle", links::circle),
    ("a next that is a free tier", links::free),
    ("the key in a free tier", links::key_in_free),
    ("a next of another segment", links::other_segment),
    ("the key in a tier of another segment", links::key_in_other),
    ("the key once more, in a later slot", slots::twice),
];

impl Target {
    /// A key that is there, mostly.
    pub fn random(rng: &mut Rng, model: &Model, keys: &[Vec<u8>]) -> Target {
        let stored: Vec<_> = model.records.keys().collect();
        let key = match stored.is_empty() || rng.percent(25) {
            true => rng.pick(keys).clone(),
            false => rng.pick(&stored).to_vec(),
        };
        let (segment, lookup_key) = model.plan.parts(&key);
        Target {
            key,
            segment,
            lookup_key,
        }
    }

    /// Keys to ask for: this one, and others that have its way.
    pub fn keys(&self, rng: &mut Rng, model: &Model, keys: &[Vec<u8>]) -> Vec<Vec<u8>> {
        let mut near = vec![self.key.clone()];
        let same_way = |key: &&Vec<u8>| model.plan.parts(key) == (self.segment, self.lookup_key);
        near.extend(keys.iter().filter(same_way).take(6).cloned());
        near.extend(keys.iter().take(6).cloned());
        for _ in 0..2 {
            near.extend(draw::key_in_segment(rng, &model.plan, self.segment));
        }
        near
    }

    fn chain<'a>(&self, scene: &Scene<'a>) -> &'a [usize] {
        &scene.model.chains[self.segment]
    }

    /// An entry in the chain, with the target's lookup key or with another.
    fn entry<'a>(&self, scene: &mut Scene<'a>, same: bool) -> Option<(usize, &'a Placed)> {
        let model = scene.model;
        let ones = model.plan.all_ones();
        let tiers = self.chain(scene).iter();
        let entries = tiers.flat_map(|&tier| model.tiers[tier].iter().map(move |at| (tier, at)));
        let entries: Vec<_> = entries
            .filter(|(_, placed)| (placed.slot_value & ones == self.lookup_key) == same)
            .collect();
        (!entries.is_empty()).then(|| *scene.rng.pick(&entries))
    }
}

/// Writes what fits into the chunks of a tier.
fn write(scene: &mut Scene, tier: usize, chunk: usize, bytes: &[u8]) {
    let plan = &scene.model.plan;
    let start = plan.chunk(tier, chunk);
    let length = bytes.len().min(room(plan, chunk));
    scene.image[start..start + length].copy_from_slice(&bytes[..length]);
}

/// Bytes from a chunk to the end of the chunks.
fn room(plan: &Plan, chunk: usize) -> usize {
    (plan.chunks - chunk) * plan.chunk_size
}

fn set_slot(scene: &mut Scene, tier: usize, slot: usize, number: u64) {
    let plan = &scene.model.plan;
    let at = plan.slot(tier, slot);
    put(scene.image, at, plan.slot_size, number);
}
