//! The quick calls: over stores that the check accepts, with the keys asked in a shuffled order.
use crate::store::{key, store, store_of, Plan, Store, ORDINARY};
use crate::{both, header, row, seen};
use chronicle_map::{quick_delay, quick_lookup, Located, Refusal};
use std::hint::black_box;

/// Fewer asks than this make too short a round.
const ASKS: usize = 20_000;

/// A store with keys to ask for: those that are there, and as many that are not.
struct Case {
    size: &'static str,
    store: Store,
    hits: Vec<[u8; 8]>,
    misses: Vec<[u8; 8]>,
}

/// All of them in a shuffled order, and again in other orders until there are enough. Every run asks in the same order.
fn shuffled<T: Copy>(all: &[T]) -> Vec<T> {
    let mut asks = Vec::new();
    let mut x = 0x2545_F491_4F6C_DD1Du64;
    while asks.len() < ASKS {
        let mut next = all.to_vec();
        for i in (1..next.len()).rev() {
            x ^= x << 13;
            x ^= x >> 7;
            x ^= x << 17;
            next.swap(i, (x % (i as u64 + 1)) as usize);
        }
        asks.extend(next);
    }
    asks
}

fn case(size: &'static str, segments: usize, total: usize) -> Case {
    let store = store_of(Plan { segments, ..ORDINARY }, total);
    assert_eq!(chronicle_map::check(&store.block, &store.image), Ok(store.counts));
    let keys: Vec<[u8; 8]> = store.keys.iter().map(|key| key[..].try_into().expect("8 bytes")).collect();
    // The store has the first of all keys; these are far behind.
    let others: Vec<[u8; 8]> = (0..total as u64).map(|n| key((1 << 40) + n)).collect();
    Case { size, hits: shuffled(&keys), misses: shuffled(&others), store }
}

fn rounds(asks: usize) -> usize {
    (4_000_000 / asks).clamp(20, 200)
}

/// A quick lookup's numbers, as the reference gives them.
pub fn numbers(answer: Result<Located, Refusal>) -> (u32, [u64; 4]) {
    match answer {
        Ok(Located::Found { offset, length, tier, slot }) => (0, [offset as u64, length as u64, tier, slot]),
        Ok(Located::Absent { tier, slot }) => (1, [0, 0, tier, slot]),
        Err(refusal) => (refusal.number(), [0; 4]),
    }
}

/// Both sides are held to the same answers before they are measured. The block and the image go through `black_box` in each ask, so that
/// the compiler cannot have the reference read them once for all asks.
fn lookups(case: &Case, name: &str, asks: &[[u8; 8]], number: u32) {
    let (b, m) = (&case.store.block[..], &case.store.image[..]);
    for key in asks {
        let answer = numbers(quick_lookup(b, m, key));
        assert_eq!(answer, reference::quick_lookup(b, m, key));
        assert_eq!(answer.0, number);
    }
    let ours = |i: usize| seen(quick_lookup(black_box(b), black_box(m), &asks[i]));
    let theirs = |i: usize| seen(reference::quick_lookup(black_box(b), black_box(m), &asks[i]));
    row(name, case.size, both(rounds(asks.len()), asks.len(), ours, theirs));
}

/// A delay of its own for each pair, and the opposite one for the other order.
fn delay(a: u32, b: u32) -> i32 {
    if a < b { (a * 40 + b) as i32 } else { -delay(b, a) }
}

/// All pairs of channels, asked for in both orders.
fn delays() {
    let mut s = store(Plan { slots: 1_024, chunks: 512, chunk_size: 8, entries: 0, ..ORDINARY });
    let pairs: Vec<(u32, u32)> = (1..=32).flat_map(|a| (1..=32).map(move |b| (a, b))).filter(|(a, b)| a != b).collect();
    for &(a, b) in pairs.iter().filter(|(a, b)| a < b) {
        assert_eq!(chronicle_map::set_delay(&s.block, &mut s.image, a, b, delay(a, b)), Ok(()));
    }
    let (block, image, asks) = (&s.block[..], &s.image[..], shuffled(&pairs));
    for &(a, b) in &asks {
        assert_eq!(quick_delay(block, image, a, b), Ok(Some(delay(a, b))));
        assert_eq!(reference::quick_delay(block, image, a, b), (0, delay(a, b)));
    }
    let ours = |i: usize| seen(quick_delay(black_box(block), black_box(image), asks[i].0, asks[i].1));
    let theirs = |i: usize| seen(reference::quick_delay(black_box(block), black_box(image), asks[i].0, asks[i].1));
    row("quick delay, hit", "496 pairs", both(rounds(asks.len()), asks.len(), ours, theirs));
}

/// What of a hit's time goes to the block and the frame: an empty key is refused right after them. The hash of no bytes is in it.
fn settings_and_frame(case: &Case) {
    let (b, m, asks) = (&case.store.block[..], &case.store.image[..], &case.hits);
    assert_eq!(quick_lookup(b, m, &[]), Err(Refusal::Key));
    let refused = |_| seen(quick_lookup(black_box(b), black_box(m), black_box(&[])));
    let hit = |i: usize| seen(quick_lookup(black_box(b), black_box(m), &asks[i]));
    row("settings and frame (answered 8)", case.size, both(rounds(asks.len()), asks.len(), refused, hit));
}

/// The same pairs in LMDB, asked for in one read transaction. They go in in the order of the keys, which makes its pages fullest.
#[cfg(feature = "lmdb")]
fn against_lmdb(case: &Case) {
    use crate::store::RECORD;
    let mut keys: Vec<&[u8]> = case.store.keys.iter().map(|key| &key[..]).collect();
    keys.sort();
    let lmdb = crate::lmdb::Lmdb::of(keys.into_iter().map(|key| (key, &RECORD[..])));
    let (b, m) = (&case.store.block[..], &case.store.image[..]);
    for (name, asks, there) in [("quick lookup, hit", &case.hits, Some(&RECORD[..])), ("quick lookup, miss", &case.misses, None)] {
        for key in asks {
            assert_eq!((chronicle_map::quick_record(b, m, key), lmdb.get(key)), (Ok(there), there));
        }
        let ours = |i: usize| seen(quick_lookup(black_box(b), black_box(m), &asks[i]));
        row(name, case.size, both(rounds(asks.len()), asks.len(), ours, |i| seen(lmdb.get(&asks[i]))));
    }
}

#[cfg(feature = "lmdb")]
fn lmdb(cases: &[Case]) {
    header("call", "LMDB");
    cases.iter().for_each(against_lmdb);
}

#[cfg(not(feature = "lmdb"))]
fn lmdb(_: &[Case]) {
    println!("\nquick lookup against LMDB: skipped (install liblmdb-dev and build with --features lmdb)");
}

pub fn tables() {
    let cases = [case("1,000 pairs", 1, 1_000), case("200,000 pairs", 256, 200_000)];
    header("call", "reference");
    for case in &cases {
        lookups(case, "quick lookup, hit", &case.hits, 0);
        lookups(case, "quick lookup, miss", &case.misses, 1);
    }
    delays();
    println!("\n| part of a quick lookup | size | library, us | a hit, us | part of a hit |\n|-|-|-|-|-|");
    cases.iter().for_each(settings_and_frame);
    lmdb(&cases);
    println!("\nThe aims for the quick calls: at most 1.0 of the reference, at most 0.5 of LMDB, at most 1 us.");
}
