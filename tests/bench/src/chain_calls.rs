//! Lookups and edits on chains of full tiers. Of an edit the check is taken off, which would be nearly all of it.
use crate::chains::{grown, rounds, Grown, FULL};
use crate::quick::numbers;
use crate::store::{key, store, Plan, Store};
use crate::{both, gone, header, ok, once, row, seen};
use std::hint::black_box;

/// The best times of both sides.
type Best = (f64, f64);
const NONE: Best = (f64::MAX, f64::MAX);

/// The checks of a round of edits: one within each of five edits and three more, by both sides.
const CHECKS: f64 = 16.0;

/// So many keys are asked for by turns: they stand at all distances from their start slots.
const ASKS: usize = 63;

/// Some of the keys of a tier, by its order in the chain.
fn keys_of(s: &Store, order: usize) -> Vec<Vec<u8>> {
    let tier = &s.keys[order * FULL.entries..][..FULL.entries];
    tier.iter().step_by(FULL.entries / ASKS).cloned().collect()
}

/// Keys that the store has not: it has the first of all keys, these are far behind.
fn absent_keys() -> Vec<Vec<u8>> {
    (0..ASKS as u64).map(|n| key((1 << 31) + n)[..FULL.key].to_vec()).collect()
}

/// Both sides are held to the same answers before they are measured, and to the tier where the search must end.
fn lookups(s: &Store, name: &str, size: &str, keys: &[Vec<u8>], end: (u32, u64)) {
    let (b, m) = (&s.block[..], &s.image[..]);
    for key in keys {
        let answer = numbers(chronicle_map::quick_lookup(b, m, key));
        assert_eq!(answer, reference::quick_lookup(b, m, key));
        assert_eq!((answer.0, answer.1[2]), end);
    }
    let ours = |i: usize| seen(chronicle_map::quick_lookup(black_box(b), black_box(m), &keys[i]));
    let theirs = |i: usize| seen(reference::quick_lookup(black_box(b), black_box(m), &keys[i]));
    row(name, size, both(15, keys.len(), ours, theirs));
}

/// The quick lookups do not check the image, so the limit is not for them.
fn quick(s: &Store, tiers: usize, size: &str) {
    let last = tiers as u64;
    lookups(s, "quick lookup, key of the first tier", size, &keys_of(s, 0), (0, 1));
    lookups(s, "quick lookup, key of the last tier", size, &keys_of(s, tiers - 1), (0, last));
    lookups(s, "quick lookup, absent key", size, &absent_keys(), (1, last));
}

/// The images of both sides, on which they make the same edits.
struct Sides<'a> {
    block: &'a [u8],
    mine: Vec<u8>,
    other: Vec<u8>,
}

impl Sides<'_> {
    fn check(&self, best: &mut Best) {
        once(&mut best.0, || chronicle_map::check(self.block, &self.mine).map_or_else(|e| e.number(), |_| 0));
        once(&mut best.1, || reference::check(self.block, &self.other).0);
    }

    fn store(&mut self, best: &mut Best, key: &[u8], record: &[u8]) {
        once(&mut best.0, || ok(chronicle_map::store(self.block, &mut self.mine, key, record)));
        once(&mut best.1, || reference::store(self.block, &mut self.other, key, record));
        assert!(self.mine == self.other);
    }

    fn remove(&mut self, best: &mut Best, key: &[u8]) {
        once(&mut best.0, || gone(chronicle_map::remove(self.block, &mut self.mine, key)));
        once(&mut best.1, || reference::remove(self.block, &mut self.other, key));
        assert!(self.mine == self.other);
    }
}

/// The middle one of three times, and how far the least and the largest are apart.
fn middle(mut times: [f64; 3]) -> (f64, f64) {
    times.sort_by(f64::total_cmp);
    (times[1], times[2] - times[0])
}

/// A difference of two best times. Where it is not above what best times of the check alone are apart, the ratio says nothing.
fn difference(name: &str, size: &str, (a, b): Best, apart: Best) {
    let ratio = if a > apart.0 && b > apart.1 { format!("{:.2}", a / b) } else { "-".into() };
    println!("| {name} | {size} | {:.3} | {:.3} | {ratio} |", a * 1e6, b * 1e6);
}

/// In each round checks before, between and after the edits, so that all meet the same slow moments.
fn edits(g: &Grown, size: &str) {
    let mut sides = Sides { block: &g.store.block, mine: g.store.image.clone(), other: g.store.image.clone() };
    let ([mut spot, mut removed, mut stored, mut joined, mut home], mut checks) = ([NONE; 5], [NONE; 3]);
    let (keys, new) = (keys_of(&g.store, g.length - 1), absent_keys());
    for i in 0..rounds(20.0, CHECKS * g.time, 3) {
        let (key, new, record) = (&keys[i], &new[i], [i as u8, 1]);
        sides.check(&mut checks[0]);
        sides.store(&mut spot, key, &record);
        sides.remove(&mut removed, key);
        sides.check(&mut checks[1]);
        sides.store(&mut stored, key, &record);
        sides.store(&mut joined, new, &record);
        sides.remove(&mut home, new);
        sides.check(&mut checks[2]);
    }
    let (ours, theirs) = (middle(checks.map(|best| best.0)), middle(checks.map(|best| best.1)));
    let (check, apart) = ((ours.0, theirs.0), (ours.1, theirs.1));
    row("check", size, check);
    difference("check, three best times of it are apart by", size, apart, apart);
    let edits = [
        ("store, replaced on the spot in the last tier, minus a check", spot),
        ("remove, key of the last tier, minus a check", removed),
        ("store, new key to the last tier, minus a check", stored),
        ("store, new key to a tier that joins, minus a check", joined),
        ("remove, tier goes home, minus a check", home),
    ];
    for (name, best) in edits {
        difference(name, size, (best.0 - check.0, best.1 - check.1), apart);
    }
}

pub fn tables(limit: f64) {
    header("call on a chain", "reference");
    for (key_bits, tiers) in [(32, 64), (1, 32)] {
        let plan = |tiers| Plan { tiers, key_bits, spare: true, ..FULL };
        quick(&store(plan(tiers)), tiers, &format!("K = {key_bits}, {tiers} full tiers"));
        let g = grown(tiers, limit / CHECKS, plan);
        let shortened = if g.length < tiers { ", SHORTENED by the limit" } else { "" };
        edits(&g, &format!("K = {key_bits}, {} full tiers{shortened}", g.length));
    }
}
