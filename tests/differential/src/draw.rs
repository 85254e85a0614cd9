//! Keys and values: few enough to repeat, and at the limits now and then.

use crate::channels;
use crate::plan::Plan;
use crate::rng::Rng;

/// What the keys of one case should meet.
pub struct Taste {
    segments: Vec<usize>,
    starts: Option<Vec<usize>>,
    part_zero: bool,
}

impl Taste {
    pub fn random(rng: &mut Rng, plan: &Plan) -> Taste {
        let hot = rng.between(1, 3);
        let segments = (0..hot).map(|_| rng.below(plan.segments)).collect();
        let near_the_end = vec![plan.slots - 1, plan.slots - 2, 0];
        Taste {
            segments,
            starts: rng.percent(40).then_some(near_the_end),
            part_zero: rng.percent(20),
        }
    }

    fn likes(&self, plan: &Plan, key: &[u8]) -> bool {
        let (segment, lookup_key) = plan.parts(key);
        let starts_well = match &self.starts {
            Some(starts) => starts.contains(&plan.start(lookup_key)),
            None => true,
        };
        self.segments.contains(&segment) && starts_well
    }
}

/// Distinct keys for one case, with as many to the taste as come easily.
pub fn keys(rng: &mut Rng, plan: &Plan, count: usize) -> Vec<Vec<u8>> {
    let taste = Taste::random(rng, plan);
    let mut keys: Vec<Vec<u8>> = Vec::new();
    for _ in 0..count {
        let mut key = key_of_plan(rng, plan);
        for _ in 0..300 {
            if taste.likes(plan, &key) {
                break;
            }
            key = key_of_plan(rng, plan);
        }
        keys.push(key);
    }
    if taste.part_zero {
        keys.extend(key_of_part_zero(rng, plan));
    }
    keys.sort();
    keys.dedup();
    rng.shuffle(&mut keys);
    keys
}

/// The same, about half of them keys of two channels.
pub fn keys_with_pairs(rng: &mut Rng, plan: &Plan, count: usize) -> Vec<Vec<u8>> {
    let mut keys = channels::keys(rng, count.div_ceil(2));
    keys.extend(self::keys(rng, plan, count / 2));
    keys.sort();
    keys.dedup();
    rng.shuffle(&mut keys);
    keys
}

/// A key whose hash part is 0, where one is met soon.
pub fn key_of_part_zero(rng: &mut Rng, plan: &Plan) -> Option<Vec<u8>> {
    let tries = (8usize << plan.key_bits.min(10)).min(8000);
    for _ in 0..tries {
        let key = key_of_plan(rng, plan);
        let hash = reference::xxh64(&key);
        if (hash >> plan.segments.ilog2()) & plan.all_ones() == 0 {
            return Some(key);
        }
    }
    None
}

fn key_of_plan(rng: &mut Rng, plan: &Plan) -> Vec<u8> {
    let room = (plan.most_chunks * plan.chunk_size)
        .saturating_sub(2)
        .max(1);
    let wished = match rng.below(100) {
        0..50 => rng.between(1, 3),
        50..85 => rng.between(2, 8),
        85..95 => rng.between(1, 40),
        95 => 127,
        96 => 128,
        97 => 1024,
        _ => rng.between(1, 1024),
    };
    let length = wished.min(room).min(1024);
    rng.bytes(length)
}

/// A new key for a segment; it fits with an empty value if any key does.
pub fn key_in_segment(rng: &mut Rng, plan: &Plan, segment: usize) -> Option<Vec<u8>> {
    let room = (plan.most_chunks * plan.chunk_size)
        .saturating_sub(2)
        .clamp(1, 6);
    for _ in 0..40 * plan.segments {
        let length = rng.between(1.max(room / 2), room);
        let key = rng.bytes(length);
        if plan.parts(&key).0 == segment {
            return Some(key);
        }
    }
    None
}

/// A key to offer: mostly one of the case's, sometimes another or a bad one.
pub fn offered_key(rng: &mut Rng, plan: &Plan, keys: &[Vec<u8>]) -> Vec<u8> {
    match rng.below(200) {
        0 => Vec::new(),
        1 => rng.bytes(1025),
        2 => rng.bytes(1024),
        3 => {
            let length = rng.between(1026, 3000);
            rng.bytes(length)
        }
        4..12 => key_of_plan(rng, plan),
        12..16 => {
            // A neighbour: a key and a byte more, or a byte less.
            let mut key = rng.pick(keys).clone();
            if rng.percent(50) {
                key.push(0);
            } else {
                key.pop();
            }
            key
        }
        _ => rng.pick(keys).clone(),
    }
}

/// A value to offer under a key of some length; it may be too long.
pub fn offered_value(rng: &mut Rng, plan: &Plan, key: usize) -> Vec<u8> {
    // The key may be a pair's.
    if key == 2 && rng.percent(60) {
        return channels::record(rng);
    }
    let most = plan.most_chunks;
    let chunks = rng.between(1, most);
    let exactly = |chunks| plan.longest_value(key, chunks).unwrap_or(0);
    // Few plans have room for the longest lengths; there they come up often.
    if exactly(most) >= 16_383 && rng.percent(30) {
        let length = *rng.pick(&[16_383, 16_384, 65_535, exactly(most).min(65_535)]);
        return rng.bytes(length);
    }
    let length = match rng.below(200) {
        0..20 => 0,
        20..60 => rng.below(12),
        60..100 => exactly(chunks),
        100..115 => exactly(chunks) + 1,
        115..130 => exactly(most),
        130..136 => exactly(most) + 1,
        136..140 => 127 + rng.below(2),
        140..142 => 16_383 + rng.below(2),
        142 => 65_535,
        143 => 65_536,
        144 => 65_537 + rng.below(1000),
        145..165 => exactly(rng.between(1, 3.min(most))),
        _ => rng.between(0, exactly(most).min(2000)),
    };
    rng.bytes(length)
}

/// Before and after the lengths that take a byte more.
const JUMPS: [usize; 4] = [127, 128, 16_383, 16_384];

/// A value that takes as many chunks as another under the same key.
pub fn value_of_as_many(rng: &mut Rng, plan: &Plan, key: usize, other: usize) -> Vec<u8> {
    let chunks = plan.chunks_of(key, other);
    let longest = plan.longest_value(key, chunks).unwrap_or(other).min(65_535);
    let fewer = plan.longest_value(key, chunks - 1);
    let shortest = fewer.map_or(0, |fewer| fewer + 1);
    let mut lengths = vec![shortest, longest, other];
    lengths.extend(JUMPS);
    lengths.retain(|length| (shortest..=longest).contains(length));
    let length = match rng.percent(60) {
        true => *rng.pick(&lengths),
        false => rng.between(shortest, longest),
    };
    rng.bytes(length)
}

/// A value that fits under a key of some length, if any does.
pub fn fitting_value(rng: &mut Rng, plan: &Plan, key: usize) -> Option<Vec<u8>> {
    plan.longest_value(key, plan.most_chunks)?;
    for _ in 0..4 {
        let value = offered_value(rng, plan, key);
        if plan.offered_number(key, Some(value.len())) == 0 {
            return Some(value);
        }
    }
    Some(Vec::new())
}
