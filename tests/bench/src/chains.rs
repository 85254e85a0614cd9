//! The check of chains whose tiers are as full as they may be, with one empty slot each. A check that seeks every key in all tiers before
//! its own, or compares it with all keys of its own tier, takes the square of their length.
use crate::store::{store, Plan, Store, ORDINARY};
use crate::{both, growth, seen};
use chronicle_map::Counts;
use std::iter::successors;
use std::time::Instant;

/// Full tiers of small entries, each in one chunk: a key of four bytes and a record of two.
pub const FULL: Plan = Plan {
    spare: false,
    slots: 4_096,
    slot_size: 8,
    key_bits: 32,
    chunks: 4_096,
    chunk_size: 8,
    entries: 4_095,
    key: 4,
    record: 2,
    ..ORDINARY
};

/// A chain whose keys all start at one slot. A check with a table of its own that goes by these bits too has them all in one place there.
pub fn colliding(tiers: usize) -> Plan {
    Plan { tiers, key: 8, chunk_size: 12, same_bits: 13, ..FULL }
}

/// A row: how many tiers or segments it has, and the most seconds that its check should take.
struct Case {
    name: &'static str,
    length: usize,
    plan: fn(usize) -> Plan,
    aim: Option<f64>,
}

fn cases() -> [Case; 7] {
    let case = |name, length, plan, aim| Case { name, length, plan, aim };
    let wide = |tiers| Plan { tiers, ..FULL };
    let narrow = |tiers| Plan { tiers, key_bits: 1, ..FULL };
    // With records of one byte, so that 256 segments fit.
    let apart = |segments| Plan { segments, key_bits: 1, chunk_size: 7, record: 1, ..FULL };
    [
        case("K = 1, one full tier", 1, narrow, None),
        case("K = 32, 64 full tiers", 64, wide, Some(0.1)),
        case("K = 1, 32 full tiers", 32, narrow, Some(0.2)),
        // 240 tiers are 15.9 million bytes, and 16,777,216 the most that an image may have.
        case("K = 32, 16 MiB of full tiers", 240, wide, Some(1.5)),
        case("K = 1, 16 MiB of full tiers", 240, narrow, Some(6.0)),
        case("K = 1, 256 segments of one full tier", 256, apart, None),
        case("K = 32, keys made to collide, 4 full tiers", 4, colliding, None),
    ]
}

/// The time of the slower side's check. Both must accept the store and count it right.
fn accepted(s: &Store) -> f64 {
    let Counts { entries, chunks, tiers, free } = s.counts;
    let t = Instant::now();
    assert_eq!(chronicle_map::check(&s.block, &s.image), Ok(s.counts));
    let ours = t.elapsed().as_secs_f64();
    let t = Instant::now();
    assert_eq!(reference::check(&s.block, &s.image), (0, [entries, chunks, tiers, free]));
    ours.max(t.elapsed().as_secs_f64())
}

/// A store that both sides accept, and the time of its check.
pub struct Grown {
    pub store: Store,
    pub length: usize,
    pub time: f64,
}

/// A store of the length that is wanted. One is made of half that length first, and before it one of a quarter, and so on: where a check
/// that takes the square would be over the limit with twice the length, the store stays as short as it is.
pub fn grown(wanted: usize, limit: f64, plan: impl Fn(usize) -> Plan) -> Grown {
    let mut lengths: Vec<usize> = successors(Some(wanted), |n| (*n > 1).then_some(n / 2)).collect();
    loop {
        let length = lengths.pop().expect("the last is returned");
        let store = store(plan(length));
        let time = accepted(&store);
        if length == wanted || 4.0 * time > limit {
            return Grown { store, length, time };
        }
    }
}

/// How many rounds of something fit into some seconds.
pub fn rounds(seconds: f64, time: f64, least: usize) -> usize {
    ((seconds / time) as usize).clamp(least, 25)
}

fn check_row(case: &Case, limit: f64) {
    let Grown { store: s, length, time } = grown(case.length, limit, case.plan);
    let ours = |_| seen(chronicle_map::check(&s.block, &s.image));
    let (a, b) = both(rounds(4.0, time, 2), 1, ours, |_| seen(reference::check(&s.block, &s.image)));
    let (name, aim) = match case.aim {
        _ if length < case.length => (format!("{}, SHORTENED to {length} by the limit", case.name), "-".into()),
        Some(aim) if a > aim => (case.name.into(), format!("{:.0}, missed", aim * 1e3)),
        Some(aim) => (case.name.into(), format!("{:.0}, met", aim * 1e3)),
        None => (case.name.into(), "-".into()),
    };
    let (entries, bytes, each) = (s.keys.len(), s.image.len(), 1e9 / s.keys.len() as f64);
    print!("| {name} | {entries} | {bytes} | {:.3} | {:.3} | {:.2} ", a * 1e3, b * 1e3, a / b);
    println!("| {:.1} | {:.1} | {aim} |", a * each, b * each);
}

/// The time for each entry, K = 32. A length for which a check that takes the square would be over the limit is left out, and named.
fn by_tiers(limit: f64) {
    let (mut stores, mut total) = (Vec::new(), 0.0);
    let (mut before, mut time) = (1, 0.0);
    for tiers in [1, 4, 16, 64, 200] {
        let factor = tiers as f64 / before as f64;
        if time * factor * factor > limit {
            println!("\nThe time for each entry, {tiers} full tiers: LEFT OUT by the limit, the check of {before} takes {time:.2} s.");
            continue;
        }
        let store = store(Plan { tiers, ..FULL });
        (before, time) = (tiers, accepted(&store));
        total += time;
        stores.push(store);
    }
    growth(&stores, rounds(4.0, total, 1), "one full tier");
}

pub fn tables(limit: f64) {
    println!("\n| check | entries | bytes | library, ms | reference, ms | ratio | library, ns an entry | reference, ns an entry | aim, ms |");
    println!("|-|-|-|-|-|-|-|-|-|");
    for case in cases() {
        check_row(&case, limit);
    }
    by_tiers(limit);
}
