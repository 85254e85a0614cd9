//! Calls on any image, accepted or not.

use crate::bulks;
use crate::channels;
use crate::compare::{Outcome, Pair};
use crate::damage::Verdict;
use crate::draw;
use crate::kinds::Kind;
use crate::plan::Plan;
use crate::quick;
use crate::rng::Rng;

/// Every call with good and bad keys and values, on any image.
pub fn all_calls(
    rng: &mut Rng,
    plan: &Plan,
    keys: &[Vec<u8>],
    pair: &mut Pair,
    verdict: Verdict,
) -> Outcome<()> {
    let (number, _) = pair.check()?;
    if let Verdict::Is(expected) = verdict
        && number != expected
    {
        return Err(format!("check: both answer {number}, meant was {expected}"));
    }
    let mut plan = plan.clone();
    quick::calls(&plan, &keys[..keys.len().min(8)], pair, number)?;
    for _ in 0..2 {
        pair.lookup(&draw::offered_key(rng, &plan, keys))?;
        both_stores(rng, &plan, keys, pair)?;
        pair.remove(&draw::offered_key(rng, &plan, keys))?;
        pair.entry(rng.below(4) as u64)?;
        pair_calls(rng, keys, pair, number)?;
        match verdict {
            Verdict::Is(0) => _ = bulks::add(&mut plan, pair)?,
            _ => one_more_bulk(&plan, pair, number)?,
        }
    }
    let long = rng.bytes(1025);
    pair.lookup(&long)?;
    pair.remove(&[])?;
    if rng.percent(5) {
        let kind = *rng.pick(&[Kind::OnTheSpot, Kind::Tight]);
        pair.store(kind, &long, &vec![0; 65_536])?;
        pair.store(kind, &[1], &vec![0; 65_536])?;
    }
    Ok(())
}

/// Both kinds of store of one key and record. The second gets the number of
/// the first: it is refused again, or replaces what the first has stored.
fn both_stores(rng: &mut Rng, plan: &Plan, keys: &[Vec<u8>], pair: &mut Pair) -> Outcome<()> {
    let key = draw::offered_key(rng, plan, keys);
    let value = draw::offered_value(rng, plan, key.len());
    let first = *rng.pick(&[Kind::OnTheSpot, Kind::Tight]);
    let number = pair.store(first, &key, &value)?;
    let second = pair.store(first.other(), &key, &value)?;
    if number != second {
        return Err(format!("stores: both answer {number}, then {second}"));
    }
    Ok(())
}

/// One bulk more of an image that may be of another plan or refused, which
/// comes before what it lacks.
fn one_more_bulk(plan: &Plan, pair: &mut Pair, refused: u32) -> Outcome<()> {
    let number = pair.grow()?;
    if refused == 0 {
        let (again, _) = pair.check()?;
        return match again {
            0 => Ok(()),
            _ => Err(format!("grow: {number}, and then {again} by the check")),
        };
    }
    if number != refused {
        return Err(format!("grow: both answer {number}, the check {refused}"));
    }
    if plan.lacks(pair.image().len()) != (0, 0) {
        pair.met(channels::before(refused, 13));
    }
    Ok(())
}

/// An ask and a set. An image or a block that the check refuses comes before
/// whatever is wrong with their arguments.
fn pair_calls(rng: &mut Rng, keys: &[Vec<u8>], pair: &mut Pair, refused: u32) -> Outcome<()> {
    let (a, b) = channels::offered(rng, keys);
    let delay = channels::offered_delay(rng);
    let (asked, _) = pair.delay(a, b)?;
    let set = pair.set_delay(a, b, delay)?;
    if refused == 0 {
        return Ok(());
    }
    if (asked, set) != (refused, refused) {
        return Err(format!(
            "pair {a} {b}: both answer {asked} and {set}, the check {refused}"
        ));
    }
    for later in channels::refusals(a, b, delay) {
        pair.met(channels::before(refused, later));
    }
    Ok(())
}
