//! Two keys of one lookup key that are not the same: they may stand in a chain
//! together.

use super::events::{FORMS, near};
use super::hashes::key_with;
use super::seen;
use super::trial::{At, Meant, Trial};

/// The forms of [`FORMS`] that are made for any K and any key. The others are
/// met by trying, where K is small.
pub const MADE: [usize; 3] = [4, 5, 6];

/// A key like the one of a slot, in its tier or in another.
pub fn key(trial: &mut Trial) -> Option<Meant> {
    let form = trial.rng.below(FORMS.len());
    let (at, slot, like) = (0..8).find_map(|_| trial.any_like(form))?;
    let other = match trial.rng.percent(50) {
        true => at,
        false => trial.other_tier(at)?,
    };
    beside(trial, (at, slot), other, &like, form)
}

pub fn beside(
    trial: &mut Trial,
    (at, slot): (At, usize),
    other: At,
    like: &[u8],
    form: usize,
) -> Option<Meant> {
    let kept = (at == other).then_some(slot);
    let draft = trial.model.draft(like, &[]);
    trial.add(trial.tier(other), draft, kept)?;
    let mut events = seen::accepted(trial, at.segment);
    events.push(near(FORMS[form], at == other));
    Some(Meant::new(0, events))
}

impl Trial<'_> {
    fn any_like(&mut self, form: usize) -> Option<(At, usize, Vec<u8>)> {
        let at = self.any_filled()?;
        let tier = self.tier(at);
        let slot = self.any_slot(tier);
        let key = self.placed(tier, slot).key.clone();
        Some((at, slot, self.like(&key, form)?))
    }

    /// A new key with the lookup key of another, in one of the forms.
    pub fn like(&mut self, key: &[u8], form: usize) -> Option<Vec<u8>> {
        let parts = self.model.plan.parts(key);
        for _ in 0..100 {
            let like = self.drawn_like(key, form)?;
            let is_like = like != key && self.model.plan.parts(&like) == parts;
            if is_like && self.keys.take(&like) {
                return Some(like);
            }
        }
        None
    }

    fn drawn_like(&mut self, key: &[u8], form: usize) -> Option<Vec<u8>> {
        let mut like = key.to_vec();
        let byte = self.rng.next() as u8;
        let hash = reference::xxh64(key);
        match form {
            0 => *like.last_mut()? = byte,
            1 => *like.first_mut()? = byte,
            2 => like.push(byte),
            3 => _ = like.pop(),
            4 => {
                let known = self.model.plan.segments.ilog2() as usize + self.model.plan.key_bits;
                let above = u64::MAX.checked_shl(known as u32).unwrap_or(0);
                let hash = hash ^ self.rng.next() & above;
                like = self.with_hash(hash);
            }
            5 => like = self.with_hash(hash),
            6 => like = self.longer(key, hash)?,
            _ => like = self.of_two_words(key, hash)?,
        }
        Some(like)
    }

    /// The key and some bytes more, with the same hash. It must be short enough
    /// that these are in its last word.
    fn longer(&mut self, key: &[u8], hash: u64) -> Option<Vec<u8>> {
        let words = key.len().div_ceil(8);
        if words % 4 == 3 {
            return None;
        }
        let more = self.rng.bytes(8 * words - key.len());
        let front = [key, &more].concat();
        Some(key_with(hash, &front, &[]))
    }

    /// The key with its last two whole words changed, which must be behind its
    /// stripes of 32 bytes.
    fn of_two_words(&mut self, key: &[u8], hash: u64) -> Option<Vec<u8>> {
        if key.len() % 32 < 16 {
            return None;
        }
        let (words, tail) = key.split_at(key.len() / 8 * 8);
        let front = [&words[..words.len() - 16], &self.rng.bytes(8)].concat();
        Some(key_with(hash, &front, tail))
    }

    fn with_hash(&mut self, hash: u64) -> Vec<u8> {
        let (words, tail) = (self.rng.below(3), self.rng.below(8));
        let front = self.rng.bytes(8 * words);
        key_with(hash, &front, &self.rng.bytes(tail))
    }
}
