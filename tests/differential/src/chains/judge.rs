//! Who is asked about an image, and what its answers are held to.

use super::rules;
use super::trial::Meant;
use crate::compare::{Outcome, Pair};
use crate::model::Model;
use crate::rng::Rng;
use crate::subject;
use crate::tally::Tally;

/// Images up to so many bytes get a lookup too, which checks them again.
const SMALL: usize = 100_000;

type Answer = (u32, [u64; 4]);

pub struct Judge<'a> {
    tally: &'a mut Tally,
    /// The subject without the reference.
    alone: bool,
}

impl<'a> Judge<'a> {
    pub fn beside(tally: &'a mut Tally) -> Judge<'a> {
        let alone = false;
        Judge { tally, alone }
    }

    pub fn alone(tally: &'a mut Tally) -> Judge<'a> {
        let alone = true;
        Judge { tally, alone }
    }

    /// The check and a lookup of a stored key must answer what is meant.
    pub fn tries(&mut self, rng: &mut Rng, model: &Model, meant: Meant) -> Outcome<()> {
        let told = |difference| format!("{difference} (meant: {:?})", meant.events);
        let slots = rules::number(model);
        let number = match (slots, &meant.broken) {
            (0, Some(_)) => 7,
            _ => slots,
        };
        if number != meant.number {
            return Err(told(format!("a case of {} that is {number}", meant.number)));
        }
        let mut image = model.image(rng);
        if let Some(broken) = &meant.broken {
            broken.apply(rng, model, &mut image);
        }
        let key = any_key(rng, model).filter(|_| image.len() < SMALL);
        let (check, lookup) = self.answers(model.plan.block(), image, key).map_err(told)?;
        let expected = match number {
            0 => (0, rules::counts(model)),
            _ => (number, [0; 4]),
        };
        if check != expected {
            return Err(told(format!("check: {check:?}, meant was {expected:?}")));
        }
        if let (Some(key), Some(lookup)) = (key, lookup) {
            is_found(model, key, number, lookup).map_err(told)?;
        }
        self.tally.meet(meant.events);
        Ok(())
    }

    fn answers(
        &mut self,
        block: Vec<u8>,
        image: Vec<u8>,
        key: Option<&[u8]>,
    ) -> Outcome<(Answer, Option<Answer>)> {
        if self.alone {
            let lookup = key.map(|key| subject::lookup(&block, &image, key));
            return Ok((subject::check(&block, &image), lookup));
        }
        let mut pair = Pair::new(block, image, self.tally);
        let check = pair.check()?;
        let lookup = key.map(|key| pair.lookup(key)).transpose()?;
        Ok((check, lookup))
    }
}

fn any_key<'a>(rng: &mut Rng, model: &'a Model) -> Option<&'a [u8]> {
    let tier = *rng.pick(&model.chained_tiers());
    let any = rng.below(model.tiers[tier].len().max(1));
    model.tiers[tier].get(any).map(|placed| &placed.key[..])
}

/// A lookup has the number of the check, or the tier and slot of its key.
fn is_found(model: &Model, key: &[u8], number: u32, lookup: Answer) -> Outcome<()> {
    let (answered, [_, _, tier, slot]) = lookup;
    let mut entries = model.tiers.get(tier as usize).into_iter().flatten();
    let is_there = entries.any(|placed| placed.key == key && placed.slot as u64 == slot);
    match answered == number && (number != 0 || is_there) {
        true => Ok(()),
        false => Err(format!("lookup: {lookup:?}, the check {number}")),
    }
}
