//! The entry of the key, or of another with its lookup key. Its head is
//! written anew; what follows stays as it lies.

use super::{Scene, Target, room, set_slot, write};
use crate::model::{Placed, entry_bytes, length_bytes};
use crate::plan::{Plan, length_size};

/// A length with one needless byte.
fn stretched(number: usize) -> Vec<u8> {
    let mut bytes = length_bytes(number);
    let last = bytes.len() - 1;
    bytes[last] |= 0x80;
    bytes.push(0);
    bytes
}

/// Writes another head: a key length, the key, a value length.
fn head(scene: &mut Scene, at: (usize, &Placed), lengths: [&[u8]; 2]) -> Option<()> {
    let (tier, placed) = at;
    let bytes = [lengths[0], &placed.key, lengths[1]].concat();
    write(scene, tier, placed.first_chunk, &bytes);
    Some(())
}

/// Lets a slot name a chunk, if it has bits for it. Answers its tier.
fn name_chunk(scene: &mut Scene, target: &Target, chunk: u64) -> Option<usize> {
    let (tier, placed) = target.entry(scene, true)?;
    let plan = &scene.model.plan;
    if chunk >> plan.chunk_bits != 0 {
        return None;
    }
    let number = target.lookup_key | chunk << plan.key_bits;
    set_slot(scene, tier, placed.slot, number);
    Some(tier)
}

/// The key's entry stands there, behind the chunks, where the tier has room.
pub fn chunk_n(scene: &mut Scene, target: &Target) -> Option<()> {
    let plan = &scene.model.plan;
    let tier = name_chunk(scene, target, plan.chunks as u64)?;
    let entry = entry_bytes(&target.key, &[1, 2, 3, 4]);
    let start = plan.chunk(tier, plan.chunks);
    let end = start + entry.len();
    if end <= plan.tier(tier) + plan.tier_size {
        scene.image[start..end].copy_from_slice(&entry);
    }
    Some(())
}

pub fn chunk_above(scene: &mut Scene, target: &Target) -> Option<()> {
    let plan = &scene.model.plan;
    let most = (1 << plan.chunk_bits) - 1;
    if most <= plan.chunks {
        return None;
    }
    let chunk = scene.rng.between(plan.chunks + 1, most) as u64;
    name_chunk(scene, target, chunk).map(|_| ())
}

pub fn key_form(scene: &mut Scene, target: &Target) -> Option<()> {
    let at = target.entry(scene, true)?;
    head(scene, at, [&stretched(at.1.key.len()), &[0]])
}

/// The value length follows at once.
pub fn key_empty(scene: &mut Scene, target: &Target) -> Option<()> {
    let (tier, placed) = target.entry(scene, true)?;
    write(scene, tier, placed.first_chunk, &[0, 0]);
    Some(())
}

pub fn key_long(scene: &mut Scene, target: &Target) -> Option<()> {
    let (tier, placed) = target.entry(scene, true)?;
    let length = 1025 + scene.rng.below(2) * scene.rng.below(100);
    if room(&scene.model.plan, placed.first_chunk) < length + 3 {
        return None;
    }
    let bytes = [length_bytes(length), vec![7; length], vec![0]].concat();
    write(scene, tier, placed.first_chunk, &bytes);
    Some(())
}

/// A key that ends so many bytes past the chunks.
fn key_past(scene: &mut Scene, target: &Target, past: usize) -> Option<()> {
    let (tier, placed) = target.entry(scene, true)?;
    let room = room(&scene.model.plan, placed.first_chunk) + past;
    let length = length_for(room, |length| length_size(length) + length)?;
    if !(1..=1024).contains(&length) {
        return None;
    }
    write(scene, tier, placed.first_chunk, &length_bytes(length));
    Some(())
}

pub fn key_out(scene: &mut Scene, target: &Target) -> Option<()> {
    let past = 1 + scene.rng.below(2) * scene.rng.below(50);
    key_past(scene, target, past)
}

pub fn key_to_end(scene: &mut Scene, target: &Target) -> Option<()> {
    key_past(scene, target, 0)
}

/// A key after which the chunks hold only the first byte of a value length of
/// two.
pub fn length_cut(scene: &mut Scene, target: &Target) -> Option<()> {
    let (tier, placed) = target.entry(scene, true)?;
    let plan = &scene.model.plan;
    let room = room(plan, placed.first_chunk);
    let key = length_for(room - 1, |length| length_size(length) + length)?;
    if !(1..=1024).contains(&key) {
        return None;
    }
    let bytes = [length_bytes(key), vec![7; key], vec![0x84]].concat();
    write(scene, tier, placed.first_chunk, &bytes);
    Some(())
}

pub fn value_form(scene: &mut Scene, target: &Target) -> Option<()> {
    let at = target.entry(scene, true)?;
    let length = *scene.rng.pick(&[0, 3, 4, 5]);
    head(
        scene,
        at,
        [&length_bytes(at.1.key.len()), &stretched(length)],
    )
}

fn value_of(scene: &mut Scene, at: (usize, &Placed), value: usize) -> Option<()> {
    let key = length_bytes(at.1.key.len());
    head(scene, at, [&key, &length_bytes(value)])
}

pub fn value_long(scene: &mut Scene, target: &Target) -> Option<()> {
    let at = target.entry(scene, true)?;
    let value = 65_536 + scene.rng.below(2) * scene.rng.below(100);
    let room = room(&scene.model.plan, at.1.first_chunk);
    if room < entry_size(at.1, value) {
        return None;
    }
    value_of(scene, at, value)
}

/// A value that ends so many bytes past the chunks.
fn value_ending(scene: &mut Scene, target: &Target, past: usize) -> Option<()> {
    let at = target.entry(scene, true)?;
    let room = room(&scene.model.plan, at.1.first_chunk) + past;
    let value = length_for(room, |value| entry_size(at.1, value))?;
    if value > 65_535 {
        return None;
    }
    value_of(scene, at, value)
}

pub fn value_to_end(scene: &mut Scene, target: &Target) -> Option<()> {
    value_ending(scene, target, 0)
}

pub fn value_one_past(scene: &mut Scene, target: &Target) -> Option<()> {
    value_ending(scene, target, 1)
}

pub fn value_past(scene: &mut Scene, target: &Target) -> Option<()> {
    let past = scene.rng.between(2, 300);
    value_ending(scene, target, past)
}

pub fn value_of_many(scene: &mut Scene, target: &Target) -> Option<()> {
    let at = target.entry(scene, true)?;
    let plan = &scene.model.plan;
    let least = least_of_many(plan, at.1)?;
    let most = room(plan, at.1.first_chunk).checked_sub(entry_size(at.1, 0) + 2)?;
    if least > most.min(65_535) {
        return None;
    }
    let value = match scene.rng.percent(50) {
        true => least,
        false => scene.rng.between(least, most.min(65_535)),
    };
    value_of(scene, at, value)
}

/// The shortest value that takes more chunks than an entry may.
fn least_of_many(plan: &Plan, placed: &Placed) -> Option<usize> {
    Some(plan.longest_value(placed.key.len(), plan.most_chunks)? + 1)
}

fn entry_size(placed: &Placed, value: usize) -> usize {
    let key = placed.key.len();
    length_size(key) + key + length_size(value) + value
}

/// The length for which an entry has such a size, if there is one.
fn length_for(size: usize, of: impl Fn(usize) -> usize) -> Option<usize> {
    let around = of(0)..of(0) + 3;
    around
        .filter_map(|less| size.checked_sub(less))
        .find(|&length| of(length) == size)
}
