//! Ratios of the library's times to a baseline's, measured in one run: both sides by turns, the best of many rounds. And the stack that
//! its calls need.
mod args;
mod chain_calls;
mod chains;
#[cfg(feature = "lmdb")]
mod lmdb;
mod painted;
mod quick;
mod stack;
mod store;

use args::{Args, Part};
use std::hint::black_box;
use std::time::Instant;
use store::{store, with_a_second_tier, Plan, Store, ORDINARY};

/// The best time of a round of each side, in seconds for one call.
fn both(rounds: usize, calls: usize, mut ours: impl FnMut(usize), mut theirs: impl FnMut(usize)) -> (f64, f64) {
    let (mut a, mut b) = (f64::MAX, f64::MAX);
    for _ in 0..rounds {
        let t = Instant::now();
        (0..calls).for_each(&mut ours);
        a = a.min(t.elapsed().as_secs_f64());
        let t = Instant::now();
        (0..calls).for_each(&mut theirs);
        b = b.min(t.elapsed().as_secs_f64());
    }
    (a / calls as f64, b / calls as f64)
}

/// An answer that the compiler must not leave out.
fn seen<T>(answer: T) {
    black_box(answer);
}

fn row(name: &str, size: &str, (a, b): (f64, f64)) {
    println!("| {name} | {size} | {:.3} | {:.3} | {:.2} |", a * 1e6, b * 1e6, a / b);
}

fn header(first: &str, baseline: &str) {
    println!("\n| {first} | size | library, us | {baseline}, us | ratio |\n|-|-|-|-|-|");
}

#[cfg(feature = "xxhash")]
fn hashes() {
    extern "C" {
        fn XXH64(input: *const u8, length: usize, seed: u64) -> u64;
    }
    header("hash", "libxxhash");
    let bytes: Vec<u8> = (0..65_536u32).map(|i| (i * 7 + 3) as u8).collect();
    for n in [2, 8, 16, 31, 32, 64, 256, 1_024, 8_192, 65_536] {
        let calls = (4_000_000 / (n + 40)).max(20);
        let part = &bytes[..n];
        // SAFETY: `part` is n bytes that stay where they are.
        let theirs = |_| seen(unsafe { XXH64(black_box(part).as_ptr(), n, 0) });
        row("xxh64", &n.to_string(), both(40, calls, |_| seen(chronicle_map::xxh64(black_box(part))), theirs));
    }
}

#[cfg(not(feature = "xxhash"))]
fn hashes() {
    println!("xxh64 against libxxhash: skipped (install libxxhash-dev and build with --features xxhash)");
}

fn reads(s: &Store, size: &str) {
    let (b, m, k) = (&s.block, &s.image, &s.keys);
    let calls = (8_000_000 / m.len()).clamp(1, 400);
    let rounds = if m.len() > 1_000_000 { 9 } else { 25 };
    let key = |i: usize| &k[i * 37 % k.len()];
    row("check", size, both(rounds, calls, |_| seen(chronicle_map::check(b, m)), |_| seen(reference::check(b, m))));
    row("lookup", size, both(rounds, calls, |i| seen(chronicle_map::lookup(b, m, key(i))), |i| seen(reference::lookup(b, m, key(i)))));
    let n = k.len() as u64 / 2;
    row("entry", size, both(rounds, calls, |_| seen(chronicle_map::entry(b, m, n)), |_| seen(reference::entry(b, m, n))));
}

/// How many rounds of edits an image of some length gets.
fn rounds(length: usize) -> usize {
    if length > 1_000_000 { 9 } else { (2_000_000 / length).clamp(25, 400) }
}

/// The number of an edit that answers nothing else.
fn ok(answer: Result<(), chronicle_map::Refusal>) -> u32 {
    answer.map_or_else(|e| e.number(), |()| 0)
}

/// The number of a removal.
fn gone(answer: Result<bool, chronicle_map::Refusal>) -> u32 {
    answer.map_or_else(|e| e.number(), |there| !there as u32)
}

/// The time of one edit, which must answer 0.
fn once(best: &mut f64, edit: impl FnOnce() -> u32) {
    let t = Instant::now();
    assert_eq!(edit(), 0);
    *best = best.min(t.elapsed().as_secs_f64());
}

/// Each side edits an image of its own: a key is removed, stored again and replaced by both kinds of store, then a new key is stored behind all
/// others and removed.
fn edits(s: &Store, size: &str) {
    let (b, k) = (&s.block, &s.keys);
    let (mut mine, mut other) = (s.image.clone(), s.image.clone());
    let (record, another) = ([1, 2, 3, 4], [5, 6, 7, 8]);
    let [mut stores, mut removes, mut replaces, mut tight, mut appends] = [(f64::MAX, f64::MAX); 5];
    for i in 0..rounds(s.image.len()) {
        let key = &k[i * 37 % k.len()];
        once(&mut removes.0, || gone(chronicle_map::remove(b, &mut mine, key)));
        once(&mut removes.1, || reference::remove(b, &mut other, key));
        once(&mut stores.0, || ok(chronicle_map::store(b, &mut mine, key, &record)));
        once(&mut stores.1, || reference::store(b, &mut other, key, &record));
        once(&mut replaces.0, || ok(chronicle_map::store(b, &mut mine, key, &another)));
        once(&mut replaces.1, || reference::store(b, &mut other, key, &another));
        once(&mut tight.0, || ok(chronicle_map::store_tight(b, &mut mine, key, &record)));
        once(&mut tight.1, || reference::store_tight(b, &mut other, key, &record));
        let new = format!("new {i}");
        once(&mut appends.0, || ok(chronicle_map::store(b, &mut mine, new.as_bytes(), &record)));
        once(&mut appends.1, || reference::store(b, &mut other, new.as_bytes(), &record));
        assert!(mine == other);
        assert_eq!((gone(chronicle_map::remove(b, &mut mine, new.as_bytes())), reference::remove(b, &mut other, new.as_bytes())), (0, 0));
    }
    row("store", size, stores);
    row("remove", size, removes);
    row("store, replaced on the spot", size, replaces);
    row("store_tight, replaced", size, tight);
    row("store, new key", size, appends);
}

/// A removal that empties the last tier of a chain, so that it goes home. Each side has an image of its own, the same one anew in each round.
fn homes(s: &Store, plan: Plan, size: &str) {
    let (chained, key) = with_a_second_tier(s, plan);
    let (mut mine, mut other) = (chained.clone(), chained.clone());
    let mut homes = (f64::MAX, f64::MAX);
    for _ in 0..rounds(chained.len()) {
        mine.copy_from_slice(&chained);
        once(&mut homes.0, || gone(chronicle_map::remove(&s.block, &mut mine, &key)));
        other.copy_from_slice(&chained);
        once(&mut homes.1, || reference::remove(&s.block, &mut other, &key));
        assert!(mine == other && mine[11..16] != [0; 5], "the tier is the first free one");
    }
    row("remove, tier goes home", size, homes);
}

/// One bulk more. Each side has an image of its own with room for it, the same one anew in each round.
fn grows(s: &Store, size: &str) {
    let mut room = s.image.clone();
    room.resize(s.image.len() + s.bulk, 0xFF);
    let (mut mine, mut other) = (room.clone(), room.clone());
    let mut grows = (f64::MAX, f64::MAX);
    for _ in 0..rounds(room.len()) {
        mine.copy_from_slice(&room);
        once(&mut grows.0, || ok(chronicle_map::grow(&s.block, &mut mine)));
        other.copy_from_slice(&room);
        once(&mut grows.1, || reference::grow(&s.block, &mut other));
        assert!(mine == other);
    }
    row("grow", size, grows);
}

fn plans() -> [(&'static str, Plan); 5] {
    let plan = |segments, slots, chunks, chunk_size, entries| Plan { segments, slots, chunks, chunk_size, entries, ..ORDINARY };
    [
        ("1 KiB", plan(1, 16, 16, 16, 8)),
        ("16 KiB", plan(1, 512, 512, 16, 300)),
        ("256 KiB", plan(4, 2_048, 2_048, 16, 1_400)),
        ("3 MiB", plan(32, 4_096, 4_096, 16, 2_800)),
        ("16 MiB", plan(128, 4_096, 4_096, 26, 1_600)),
    ]
}

/// The check's time for each entry, as the store grows with its shape the same. All sizes by turns, so that a slow moment of the machine
/// meets each of them.
fn growth(stores: &[Store], rounds: usize, first: &str) {
    println!("\n| entries | bytes | library, ns an entry | of that at {first} | reference, ns an entry | of that at {first} |\n|-|-|-|-|-|-|");
    let mut best = vec![(f64::MAX, f64::MAX); stores.len()];
    for _ in 0..rounds {
        for (s, best) in stores.iter().zip(&mut best) {
            let ours = |_| seen(chronicle_map::check(&s.block, &s.image));
            let (a, b) = both(2, 1, ours, |_| seen(reference::check(&s.block, &s.image)));
            let each = 1e9 / s.keys.len() as f64;
            *best = (best.0.min(a * each), best.1.min(b * each));
        }
    }
    for (s, (x, y)) in stores.iter().zip(&best) {
        println!("| {} | {} | {x:.1} | {:.2} | {y:.1} | {:.2} |", s.keys.len(), s.image.len(), x / best[0].0, y / best[0].1);
    }
}

fn segments() {
    let plan = |segments| Plan { segments, entries: 1_000.min(200_000 / segments), ..ORDINARY };
    growth(&[1, 8, 64, 256].map(|segments| store(plan(segments))), 60, "1,000");
}

fn calls() {
    header("call", "reference");
    for (size, plan) in plans() {
        let s = store(plan);
        assert_eq!(chronicle_map::check(&s.block, &s.image), Ok(s.counts));
        reads(&s, size);
        edits(&s, size);
        homes(&s, plan, size);
        grows(&s, size);
    }
}

fn main() {
    let args = Args::read();
    for part in &args.parts {
        match part {
            Part::Hash => hashes(),
            Part::Calls => calls(),
            Part::Growth => segments(),
            Part::Quick => quick::tables(),
            Part::Chains => chains::tables(args.limit),
            Part::ChainCalls => chain_calls::tables(args.limit),
            Part::Stack => stack::table(),
        }
    }
}
