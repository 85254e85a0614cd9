//! Chains filled up to the last slot but one, placed by the driver, and copies
//! of them made wrong in one slot or left sound. What the check must say of
//! each is known before it is asked.

mod counters;
mod events;
mod fill;
mod hashes;
mod judge;
mod keys;
mod large;
mod near;
mod reach;
mod rules;
mod seen;
mod shape;
mod trial;
mod twice;

pub use events::planned;

use crate::compare::Outcome;
use crate::model::Model;
use crate::rng::Rng;
use crate::tally::Tally;
use judge::Judge;
use keys::{Keys, Taste};
use shape::Shape;
use trial::{Meant, Trial};

/// One case in so many has full chains, beside what else it has.
const SHARE: u64 = 16;
/// One case in so many has a large one instead.
const LARGE_SHARE: u64 = 2000;
/// How many copies of a store are tried.
const COPIES: usize = 6;

/// None if the store has nothing for it.
type Kind = fn(&mut Trial) -> Option<Meant>;

/// A kind that stands here twice is drawn as often again.
const KINDS: [Kind; 14] = [
    twice::in_tier,
    twice::over_the_wrap,
    twice::in_chain,
    twice::in_chain,
    twice::one_entry,
    twice::three_times,
    near::key,
    reach::moved,
    reach::behind_a_gap,
    reach::taken_out,
    reach::exchanged,
    reach::no_gap,
    counters::broken,
    counters::beside_a_key_twice,
];

/// Subject and reference, which are compared as well.
pub fn beside(seed: u64, case: u64, tally: &mut Tally) -> Outcome<()> {
    if !case.is_multiple_of(SHARE) {
        return Ok(());
    }
    run(seed, case, Judge::beside(tally))
}

/// The subject alone, held to what was meant and to nothing else.
pub fn alone(seed: u64, case: u64, tally: &mut Tally) -> Outcome<()> {
    run(seed, case, Judge::alone(tally))
}

fn run(seed: u64, case: u64, mut judge: Judge) -> Outcome<()> {
    let rng = &mut Rng::for_chains(seed, case);
    if case.is_multiple_of(LARGE_SHARE) {
        return large::run(rng, &mut judge, (case / LARGE_SHARE) as usize);
    }
    let mut store = Store::random(rng);
    store.is_accepted(rng, &mut judge)?;
    for _ in 0..COPIES {
        let kind = *rng.pick(&KINDS);
        store.tried(rng, &mut judge, kind)?;
    }
    Ok(())
}

/// A sound one, and the source of further keys for it.
struct Store {
    model: Model,
    keys: Keys,
}

impl Store {
    fn random(rng: &mut Rng) -> Store {
        let shape = Shape::random(rng);
        let taste = Taste::random(rng, shape.lengths);
        let chains = shape.chains.iter();
        let wished = chains.map(|&tiers| fill::wished(rng, shape.slots, tiers));
        let wished: Vec<Vec<usize>> = wished.collect();
        Store::filled(rng, &shape, taste, &wished)
    }

    fn filled(rng: &mut Rng, shape: &Shape, taste: Taste, wished: &[Vec<usize>]) -> Store {
        let plan = shape.plan(rng);
        let mut keys = Keys::new(rng, &plan, shape.lengths, taste);
        let model = fill::filled(rng, &plan, &mut keys, wished);
        Store { model, keys }
    }

    fn is_accepted(&mut self, rng: &mut Rng, judge: &mut Judge) -> Outcome<()> {
        self.copy(rng, judge, |trial| {
            let segments = 0..trial.model.chains.len();
            let events = segments.flat_map(|segment| seen::accepted(trial, segment));
            Some(Meant::new(0, events.collect()))
        })
    }

    /// Tries a copy of one kind, in which there must be something for it.
    fn copy(
        &mut self,
        rng: &mut Rng,
        judge: &mut Judge,
        kind: impl Fn(&mut Trial) -> Option<Meant>,
    ) -> Outcome<()> {
        for _ in 0..100 {
            if self.tried(rng, judge, &kind)? {
                return Ok(());
            }
        }
        Err("a store that has nothing for a copy".to_string())
    }

    /// Whether there was something for it.
    fn tried(
        &mut self,
        rng: &mut Rng,
        judge: &mut Judge,
        kind: impl Fn(&mut Trial) -> Option<Meant>,
    ) -> Outcome<bool> {
        let mut trial = Trial {
            rng,
            keys: &mut self.keys,
            model: self.model.clone(),
        };
        let Some(meant) = kind(&mut trial) else {
            return Ok(false);
        };
        judge.tries(trial.rng, &trial.model, meant)?;
        Ok(true)
    }
}
