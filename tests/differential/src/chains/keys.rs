//! New keys for full chains, to a taste: any, or with hashes that are alike.

use std::collections::HashSet;

use super::hashes::key_with;
use crate::plan::Plan;
use crate::rng::Rng;

#[derive(Clone, Copy, PartialEq)]
pub enum Lengths {
    /// Up to 8 bytes.
    Short,
    /// Up to 31 bytes, less than a stripe of the hash.
    Middle,
    /// Up to 1,024 bytes.
    Long,
}

/// What the hashes of the keys have in common, beside their segment.
#[derive(Clone, Copy, Debug, PartialEq)]
pub enum Taste {
    Any,
    /// Start slots in the last quarter of a tier.
    NearTheEnd,
    /// So many low bits above the segment's: of the lookup key, or all of it
    /// and what follows.
    Alike(u32),
    /// The same for three keys in four.
    MostlyAlike(u32),
    OneLookupKey,
    /// All bits: the keys are of more than 8 bytes.
    OneHash,
}

impl Taste {
    pub fn random(rng: &mut Rng, lengths: Lengths) -> Taste {
        match rng.below(100) {
            0..50 => Taste::Any,
            50..65 => Taste::NearTheEnd,
            65..80 => Taste::Alike(rng.between(1, 13) as u32),
            80..92 => Taste::OneLookupKey,
            _ if lengths == Lengths::Short => Taste::Any,
            _ => Taste::OneHash,
        }
    }

    /// The bits of a hash that all keys have in common.
    fn mask(self, plan: &Plan) -> u64 {
        let above = plan.segments.ilog2();
        let part = plan.all_ones();
        match self {
            Taste::Any => 0,
            Taste::NearTheEnd => (part & (3 * plan.slots as u64 / 4)) << above,
            Taste::Alike(bits) | Taste::MostlyAlike(bits) => ((1 << bits) - 1) << above,
            Taste::OneLookupKey => part << above,
            Taste::OneHash => u64::MAX << above,
        }
    }
}

pub struct Keys {
    plan: Plan,
    lengths: Lengths,
    pub taste: Taste,
    mask: u64,
    pattern: u64,
    /// What half of the keys that are alike begin with.
    front: Vec<u8>,
    used: HashSet<Vec<u8>>,
    last: Vec<u8>,
}

impl Keys {
    pub fn new(rng: &mut Rng, plan: &Plan, lengths: Lengths, taste: Taste) -> Keys {
        let pattern = match taste {
            Taste::NearTheEnd => u64::MAX,
            // A hash part of 0 comes up here at any K.
            Taste::OneLookupKey if rng.percent(20) => 0,
            _ => rng.next(),
        };
        Keys {
            plan: plan.clone(),
            lengths,
            taste,
            mask: taste.mask(plan),
            pattern,
            front: rng.bytes(1024),
            used: HashSet::new(),
            last: Vec::new(),
        }
    }

    /// A key that was not given before; None if that takes too long.
    pub fn next(&mut self, rng: &mut Rng) -> Option<Vec<u8>> {
        for _ in 0..200 {
            let key = match self.taste {
                Taste::Any if rng.percent(25) => self.beside_last(rng),
                Taste::Any => self.any(rng),
                Taste::MostlyAlike(_) if rng.percent(25) => self.any(rng),
                _ => self.alike(rng),
            };
            if self.take(&key) {
                self.last.clone_from(&key);
                return Some(key);
            }
        }
        None
    }

    /// Whether a key is good and was not given before; from now on it was.
    pub fn take(&mut self, key: &[u8]) -> bool {
        self.plan.offered_number(key.len(), Some(0)) == 0 && self.used.insert(key.to_vec())
    }

    fn any(&self, rng: &mut Rng) -> Vec<u8> {
        let length = match self.lengths {
            Lengths::Short if self.plan.slots > 64 => rng.between(4, 8),
            Lengths::Short => rng.between(1, 8),
            Lengths::Middle => rng.between(1, 31),
            Lengths::Long => match rng.below(8) {
                0 => 1024,
                1 => rng.between(127, 128),
                2 | 3 => rng.between(1, 8),
                _ => rng.between(1, 1024),
            },
        };
        rng.bytes(length)
    }

    /// The last key with another byte, a byte more or a byte less.
    fn beside_last(&self, rng: &mut Rng) -> Vec<u8> {
        let mut key = self.last.clone();
        if key.is_empty() {
            return self.any(rng);
        }
        let byte = rng.next() as u8;
        match rng.below(5) {
            0 => key[0] = byte,
            1 => _ = key.pop(),
            2 if self.lengths != Lengths::Short => key.push(byte),
            3 => {
                let place = rng.below(key.len());
                key[place] = byte;
            }
            _ => *key.last_mut().expect("it is not empty") = byte,
        }
        key
    }

    fn alike(&self, rng: &mut Rng) -> Vec<u8> {
        let hash = rng.next() & !self.mask | self.pattern & self.mask;
        self.with_hash(rng, hash)
    }

    /// A key with this hash. Short ones have one for each hash.
    fn with_hash(&self, rng: &mut Rng, hash: u64) -> Vec<u8> {
        let (stripes, tail) = match self.lengths {
            Lengths::Short => return key_with(hash, &[], &[]),
            Lengths::Middle => (0, rng.below(8)),
            Lengths::Long => (rng.below(31), rng.below(8)),
        };
        let word = rng.bytes(8);
        let tail = rng.bytes(tail);
        let front = match rng.below(4) {
            0 => rng.bytes(32 * stripes),
            1 => rng.bytes(32 * stripes + 8),
            _ => [&self.front[..32 * stripes + 8], &word].concat(),
        };
        key_with(hash, &front, &tail)
    }
}
