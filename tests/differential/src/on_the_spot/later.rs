//! A store after a replacement of as many chunks: it may be answered 10 after
//! the one kind and 0 after the other.

use super::Kinds;
use super::events::{later, later_at_home};
use crate::compare::{Outcome, Pair};
use crate::draw;
use crate::kinds::Kind;
use crate::live;
use crate::oracle::Oracle;
use crate::rng::Rng;

/// Tries a new key that only one of the two images has room for, if there is
/// one. Answers what came up.
pub fn store_after(rng: &mut Rng, kinds: &Kinds, pair: &Pair) -> Outcome<Option<String>> {
    let plan = kinds.plan;
    let segment = plan.parts(kinds.key).0;
    let images = [kinds.on_the_spot, kinds.tight];
    let oracles = images.map(|image| Oracle { plan, image });
    if oracles[0].first_free() != 0 {
        return Ok(None);
    }
    // The tight store may have sent a tier home, which takes any entry.
    let came_home = oracles[1].first_free() != 0;
    let [spot_run, mut tight_run] = oracles.map(|oracle| oracle.longest_run(segment));
    if came_home {
        tight_run = plan.chunks;
    }
    let chunks = spot_run.max(tight_run).min(plan.most_chunks);
    let expected = [spot_run, tight_run].map(|run| if run < chunks { 10 } else { 0 });
    if expected == [0, 0] {
        return Ok(None);
    }
    let Some((key, value)) = new_entry(rng, kinds, segment, chunks) else {
        return Ok(None);
    };
    let kind = *rng.pick(&[Kind::OnTheSpot, Kind::Tight]);
    let [on_the_spot, tight] = images.map(|image| pair.store_on(image, kind, &key, &value));
    let numbers = [on_the_spot?.0, tight?.0];
    if numbers != expected {
        return Err(format!(
            "a later store: {numbers:?}, meant was {expected:?}"
        ));
    }
    Ok(Some(match came_home {
        true => later_at_home(),
        false => later(numbers),
    }))
}

/// A new key of a segment, and a value that takes so many chunks with it.
fn new_entry(
    rng: &mut Rng,
    kinds: &Kinds,
    segment: usize,
    chunks: usize,
) -> Option<(Vec<u8>, Vec<u8>)> {
    let plan = kinds.plan;
    let key = draw::key_in_segment(rng, plan, segment)?;
    let value = rng.bytes(plan.longest_value(key.len(), chunks)?);
    let fits = plan.offered_number(key.len(), Some(value.len())) == 0
        && plan.chunks_of(key.len(), value.len()) == chunks;
    let is_new = live::entry_of(plan, kinds.before, &key).is_none();
    (fits && is_new).then_some((key, value))
}
