//! Channels, delays and records for the pair calls, good ones and bad ones,
//! and the rules for them, read apart from the reference.

use crate::rng::Rng;

/// Kinds of 11 and 12 that must come up in a whole run.
const KINDS: [&str; 12] = [
    "channel 0",
    "channel 33",
    "a channel from 34 to 255",
    "a channel whose low byte is one",
    "a large channel",
    "equal channels",
    "an empty record asked for",
    "a shorter record asked for",
    "a record of 3 bytes asked for",
    "a record of 5 bytes asked for",
    "a longer record asked for",
    "the most negative number asked for",
];

fn is_channel(number: u32) -> bool {
    (1..=32).contains(&number)
}

/// Why two numbers are no pair, which is 11.
pub fn no_pair(a: u32, b: u32) -> Option<&'static str> {
    match [a, b].into_iter().find(|&number| !is_channel(number)) {
        Some(0) => Some("channel 0"),
        Some(33) => Some("channel 33"),
        Some(34..=255) => Some("a channel from 34 to 255"),
        Some(wide) if is_channel(wide & 0xFF) => Some("a channel whose low byte is one"),
        Some(_) => Some("a large channel"),
        None => (a == b).then_some("equal channels"),
    }
}

/// Why a stored record is no delay, which is 12.
pub fn no_delay(record: &[u8]) -> Option<&'static str> {
    match *record {
        [] => Some("an empty record asked for"),
        [_] | [_, _] => Some("a shorter record asked for"),
        [_, _, _] => Some("a record of 3 bytes asked for"),
        [0, 0, 0, 0x80] => Some("the most negative number asked for"),
        [_, _, _, _] => None,
        [_, _, _, _, _] => Some("a record of 5 bytes asked for"),
        _ => Some("a longer record asked for"),
    }
}

/// The numbers that a set gets for its arguments, in their order.
pub fn refusals(a: u32, b: u32, delay: i32) -> Vec<u32> {
    let pair = no_pair(a, b).map(|_| 11);
    let most_negative = (delay == i32::MIN).then_some(12);
    pair.into_iter().chain(most_negative).collect()
}

/// What is counted where a number is answered and a later one applies too.
pub fn before(first: u32, later: u32) -> String {
    format!("{first} before {later}")
}

/// All that must come up in the pair calls of a whole run.
pub fn planned() -> Vec<String> {
    let of_image = (2..=7).flat_map(|first| [(first, 11), (first, 12)]);
    let of_arguments = [(11, 12), (11, 9), (11, 10), (12, 9), (12, 10)];
    let orders = of_image.chain(of_arguments);
    let orders = orders.map(|(first, later)| before(first, later));
    let kinds = KINDS.iter().map(|kind| kind.to_string());
    orders.chain(kinds).collect()
}

/// The key of a pair. Of two numbers that are none, that of their low bytes,
/// which a call that looks at no more would take.
pub fn key(a: u32, b: u32) -> Vec<u8> {
    vec![a.min(b) as u8, a.max(b) as u8]
}

/// The record that a set stores.
pub fn kept(a: u32, b: u32, delay: i32) -> Vec<u8> {
    let delay = if a < b { delay } else { delay.wrapping_neg() };
    delay.to_le_bytes().to_vec()
}

/// The pair that a key is of, the smaller channel first or not.
pub fn pair_of(key: &[u8]) -> Option<(u32, u32)> {
    let &[a, b] = key else {
        return None;
    };
    let (a, b) = (a.into(), b.into());
    no_pair(a, b).is_none().then_some((a, b))
}

/// Keys of few channels in both orders, so that pairs repeat, and now and
/// then one that looks like a pair's and is none.
pub fn keys(rng: &mut Rng, count: usize) -> Vec<Vec<u8>> {
    let few = rng.between(2, 5);
    let many = if rng.percent(15) { 32 } else { few };
    let mut channels: Vec<u8> = (0..many).map(|_| rng.between(1, 32) as u8).collect();
    channels.extend([1, 32]);
    let mut keys = Vec::new();
    for _ in 0..count {
        let (a, b) = (*rng.pick(&channels), *rng.pick(&channels));
        keys.push(match rng.below(20) {
            0 => vec![*rng.pick(&[0, 33]), b],
            1 => vec![a, *rng.pick(&[0, 33])],
            _ => vec![a, b],
        });
    }
    keys
}

/// Two channels to offer: mostly a pair of the case's keys in either order.
pub fn offered(rng: &mut Rng, keys: &[Vec<u8>]) -> (u32, u32) {
    let any = (rng.between(1, 32) as u32, rng.between(1, 32) as u32);
    let picked = (0..4).find_map(|_| pair_of(rng.pick(keys).as_slice()));
    let (mut a, mut b) = picked.unwrap_or(any);
    if rng.percent(50) {
        (a, b) = (b, a);
    }
    match rng.below(100) {
        0..5 => b = a,
        5..14 => a = no_channel(rng, a),
        14..23 => b = no_channel(rng, b),
        23..25 => (a, b) = (no_channel(rng, a), no_channel(rng, b)),
        _ => {}
    }
    (a, b)
}

/// A number in place of a channel.
fn no_channel(rng: &mut Rng, channel: u32) -> u32 {
    match rng.below(6) {
        0 => 0,
        1 => 33,
        2 => rng.between(34, 255) as u32,
        3 => channel + (256 << (8 * rng.below(3))),
        4 => channel + 256 * rng.between(1, (1 << 24) - 1) as u32,
        _ => u32::MAX - rng.below(40) as u32,
    }
}

pub fn offered_delay(rng: &mut Rng) -> i32 {
    match rng.below(10) {
        0 => i32::MIN,
        1..4 => *rng.pick(&[i32::MIN + 1, -1, 0, 1, i32::MAX]),
        4..7 => rng.between(0, 4000) as i32 - 2000,
        _ => rng.next() as i32,
    }
}

/// A record to store under a pair's key without the pair calls.
pub fn record(rng: &mut Rng) -> Vec<u8> {
    if rng.percent(70) {
        return offered_delay(rng).to_le_bytes().to_vec();
    }
    let length = *rng.pick(&[0, 3, 5]);
    rng.bytes(length)
}
