//! Chains that take their time: of thousands of entries, slots or tiers.

mod copies;

use super::Store;
use super::events::{RESIDUES, SIZES, TABLES};
use super::fill;
use super::judge::Judge;
use super::keys::{Lengths, Taste};
use super::reach;
use super::shape::{KeyBits, Shape};
use super::twice;
use crate::compare::Outcome;
use crate::rng::Rng;
use copies::{in_a_full_tier, in_ends, in_one_slot, in_tiers, like_in_ends};

type Kind = fn(&mut Rng, &mut Judge, usize) -> Outcome<()>;

/// They take turns, and are told how many turns they had.
const KINDS: [Kind; 11] = [
    |rng, judge, _| five_tiers(rng, judge, 32),
    |rng, judge, _| five_tiers(rng, judge, 8),
    alike,
    mostly_alike,
    sizes,
    two_chains,
    many_slots,
    many_tiers,
    |rng, judge, _| three_tiers(rng, judge, 32),
    |rng, judge, _| three_tiers(rng, judge, 8),
    |rng, judge, _| TABLES.iter().try_for_each(|&size| table(rng, judge, size)),
];

const IN_THREE_TIERS: [super::Kind; 7] = [
    twice::in_tier,
    twice::in_chain,
    like_in_ends,
    reach::moved,
    reach::taken_out,
    reach::exchanged,
    reach::no_gap,
];

const SLOTS: usize = 4096;

pub fn run(rng: &mut Rng, judge: &mut Judge, turn: usize) -> Outcome<()> {
    KINDS[turn % KINDS.len()](rng, judge, turn / KINDS.len())
}

/// Tiers that are nearly full, or full but for one slot.
fn nearly_full(rng: &mut Rng, tiers: usize) -> Vec<usize> {
    let tier = |_| match rng.percent(50) {
        true => SLOTS - 1,
        false => rng.between(SLOTS - 500, SLOTS - 2),
    };
    (0..tiers).map(tier).collect()
}

/// More than 16,384 entries.
fn five_tiers(rng: &mut Rng, judge: &mut Judge, key_bits: usize) -> Outcome<()> {
    let shape = Shape::large(SLOTS, vec![5], key_bits);
    let wished = nearly_full(rng, 5);
    let mut store = Store::filled(rng, &shape, Taste::Any, &[wished]);
    store.is_accepted(rng, judge)?;
    store.copy(rng, judge, like_in_ends)?;
    for rest in 0..RESIDUES {
        store.copy(rng, judge, |trial| in_ends(trial, 0, Some(rest)))?;
    }
    Ok(())
}

/// More than 8,192 entries.
fn three_tiers(rng: &mut Rng, judge: &mut Judge, key_bits: usize) -> Outcome<()> {
    let shape = Shape::large(SLOTS, vec![3], key_bits);
    let wished = vec![SLOTS - 1, SLOTS - 1, rng.between(3000, SLOTS - 2)];
    let mut store = Store::filled(rng, &shape, Taste::Any, &[wished]);
    store.is_accepted(rng, judge)?;
    for kind in IN_THREE_TIERS {
        store.copy(rng, judge, kind)?;
    }
    Ok(())
}

/// All entries are gone over together, which are more than a table takes even
/// without the last tier. The searches in their place are long where many have
/// one start slot, so these are few.
fn alike(rng: &mut Rng, judge: &mut Judge, turn: usize) -> Outcome<()> {
    let (bits, key_bits) = [(13, 32), (8, 32), (3, 8)][turn % 3];
    let shape = Shape::large(SLOTS, vec![5], key_bits);
    let wished = vec![3300; 5];
    let mut store = Store::filled(rng, &shape, Taste::Alike(bits), &[wished]);
    store.is_accepted(rng, judge)?;
    store.copy(rng, judge, |trial| in_ends(trial, 0, None))?;
    if bits == 8 {
        behind_the_table(rng, judge, &mut store)?;
    }
    Ok(())
}

/// The same for most of the entries, and not for the others.
fn mostly_alike(rng: &mut Rng, judge: &mut Judge, _: usize) -> Outcome<()> {
    let shape = Shape::large(SLOTS, vec![5], 32);
    let wished = vec![3800; 5];
    let mut store = Store::filled(rng, &shape, Taste::MostlyAlike(8), &[wished]);
    store.is_accepted(rng, judge)?;
    store.copy(rng, judge, like_in_ends)?;
    store.copy(rng, judge, |trial| in_ends(trial, 0, None))?;
    behind_the_table(rng, judge, &mut store)
}

/// A key twice in the last of five tiers, in it and in the one before, and in
/// one slot of it and of another.
fn behind_the_table(rng: &mut Rng, judge: &mut Judge, store: &mut Store) -> Outcome<()> {
    store.copy(rng, judge, |trial| in_tiers(trial, [4, 4]))?;
    store.copy(rng, judge, |trial| in_tiers(trial, [3, 4]))?;
    store.copy(rng, judge, |trial| {
        let order = trial.rng.below(4);
        in_one_slot(trial, [order, 4])
    })
}

/// A key twice takes the place of another, so that they stay as many.
fn sizes(rng: &mut Rng, judge: &mut Judge, turn: usize) -> Outcome<()> {
    for size in SIZES {
        let entries = size + turn % 3 - 1;
        let slots = if size < SLOTS { 64 } else { SLOTS };
        let tiers = entries.div_ceil(slots - 1) + rng.below(2);
        let key_bits = *rng.pick(&[1, 2, 8, 9, 12, 13, 14, 15, 16, 20, 24, 32, 52]);
        let shape = Shape::large(slots, vec![tiers], key_bits);
        let wished = fill::exactly(rng, entries, slots, tiers);
        let mut store = Store::filled(rng, &shape, Taste::Any, &[wished]);
        store.is_accepted(rng, judge)?;
        store.copy(rng, judge, in_a_full_tier)?;
    }
    Ok(())
}

/// As many entries that are gone over together as a table takes, or one more
/// or less.
fn table(rng: &mut Rng, judge: &mut Judge, size: usize) -> Outcome<()> {
    for entries in size - 1..=size + 1 {
        let tiers = entries.div_ceil(SLOTS - 1);
        let shape = Shape::large(SLOTS, vec![tiers], 32);
        let wished = fill::exactly(rng, entries, SLOTS, tiers);
        let mut store = Store::filled(rng, &shape, Taste::Alike(8), &[wished]);
        store.is_accepted(rng, judge)?;
        store.copy(rng, judge, in_a_full_tier)?;
    }
    Ok(())
}

/// A key twice in the second chain, which has many entries or few.
fn two_chains(rng: &mut Rng, judge: &mut Judge, _: usize) -> Outcome<()> {
    for few in [false, true] {
        let key_bits = *rng.pick(&[8, 20, 32]);
        let shape = Shape::large(SLOTS, vec![3, 3], key_bits);
        let second = match few {
            true => vec![40, 9, 30],
            false => nearly_full(rng, 3),
        };
        let wished = [nearly_full(rng, 3), second];
        let mut store = Store::filled(rng, &shape, Taste::Any, &wished);
        store.is_accepted(rng, judge)?;
        store.copy(rng, judge, |trial| in_ends(trial, 1, None))?;
    }
    Ok(())
}

/// More than 65,536 slots, with few of them full or most.
fn many_slots(rng: &mut Rng, judge: &mut Judge, turn: usize) -> Outcome<()> {
    let (tiers, key_bits) = [(20, 32), (18, 32), (260, 8)][turn % 3];
    let mut shape = Shape::large(SLOTS, vec![tiers], key_bits);
    let mut most = 3700;
    if turn % 3 != 1 {
        (shape.chunks, most) = (16, 15);
    }
    let wished: Vec<usize> = (0..tiers).map(|_| rng.between(most - 10, most)).collect();
    let mut store = Store::filled(rng, &shape, Taste::Any, &[wished]);
    store.is_accepted(rng, judge)?;
    store.copy(rng, judge, twice::in_chain)?;
    store.copy(rng, judge, |trial| in_tiers(trial, [tiers - 2, tiers - 1]))?;
    store.copy(rng, judge, |trial| in_ends(trial, 0, None))
}

/// More than 256 tiers, of few slots.
fn many_tiers(rng: &mut Rng, judge: &mut Judge, turn: usize) -> Outcome<()> {
    let tiers = [300, 600, 1000][turn % 3];
    let slots = *rng.pick(&[4, 8]);
    let shape = Shape {
        slots,
        slot_size: *rng.pick(&[4, 8]),
        chains: vec![tiers],
        key_bits: KeyBits::Exactly(rng.between(1, 56)),
        lengths: Lengths::Middle,
        chunks: 3 * slots,
        chunk_size: 12,
    };
    let wished: Vec<usize> = (0..tiers).map(|_| rng.between(1, slots - 1)).collect();
    let mut store = Store::filled(rng, &shape, Taste::Any, &[wished]);
    store.is_accepted(rng, judge)?;
    store.copy(rng, judge, twice::in_chain)?;
    store.copy(rng, judge, |trial| in_tiers(trial, [tiers - 2, tiers - 1]))?;
    store.copy(rng, judge, |trial| in_ends(trial, 0, None))
}
