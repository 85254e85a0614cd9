//! The quick calls on any image, held to a slow walk of it and to the check.

mod asks;
mod cases;
mod events;
mod stored;
mod walk;

pub use cases::{framed, walked};

use crate::channels;
use crate::compare::{Outcome, Pair};
use crate::plan::Plan;
use walk::Walk;

/// The check's number and the quick lookup's. With 7 the slots and entries
/// are right, so that no walk meets anything broken.
const REFUSED: [(u32, u32); 8] = [
    (5, 0),
    (5, 1),
    (5, 18),
    (6, 0),
    (6, 1),
    (6, 18),
    (7, 0),
    (7, 1),
];
const ORDERS: [(u32, u32); 9] = [
    (2, 8),
    (3, 8),
    (4, 8),
    (8, 18),
    (2, 11),
    (3, 11),
    (4, 11),
    (11, 18),
    (18, 12),
];
const NO_DELAYS: [&[u8]; 6] = [
    &[],
    &[1],
    &[1, 2, 3],
    &[1, 2, 3, 4, 5],
    &[1, 2, 3, 4, 5, 6],
    &[0, 0, 0, 0x80],
];
const PASSED: &str = "a quick ask: absent past a record that is no delay";

fn refused(checked: u32, number: u32) -> String {
    format!("{checked} by the check, {number} by the quick lookup")
}

fn before(first: u32, later: u32) -> String {
    format!("quick: {}", channels::before(first, later))
}

fn no_delay(record: &[u8]) -> Option<String> {
    channels::no_delay(record).map(|kind| format!("quick: {kind}"))
}

pub fn planned() -> Vec<String> {
    let refused = REFUSED.map(|(checked, number)| refused(checked, number));
    let orders = ORDERS.map(|(first, later)| before(first, later));
    events::planned()
        .chain(refused)
        .chain(orders)
        .chain(NO_DELAYS.into_iter().filter_map(no_delay))
        .chain([PASSED.to_string()])
        .collect()
}

/// An image, and the check's number of it.
struct Quick<'a, 'b> {
    plan: &'a Plan,
    /// The walk is known: block and frame are the plan's.
    framed: bool,
    checked: u32,
    pair: &'a mut Pair<'b>,
}

/// Quick lookups of keys and of bad ones, and asks for the pairs among them
/// and for what is none.
pub fn calls(plan: &Plan, keys: &[Vec<u8>], pair: &mut Pair, checked: u32) -> Outcome<()> {
    let framed = pair.is_framed(plan);
    let mut quick = Quick {
        plan,
        framed,
        checked,
        pair,
    };
    for key in keys {
        quick.lookup(key)?;
        if let Some((a, b)) = channels::pair_of(key) {
            quick.ask(a, b)?;
        }
    }
    quick.lookup(&[])?;
    quick.lookup(&[7; 1025])?;
    for (a, b) in [(1, 1), (0, 2), (1, 33), (258, 1)] {
        quick.ask(a, b)?;
    }
    pair.same_images("quick calls")
}

impl Quick<'_, '_> {
    fn lookup(&mut self, key: &[u8]) -> Outcome<()> {
        let (number, place) = self.pair.quick_lookup(key)?;
        let bad_key = !(1..=1024).contains(&key.len());
        let refused_first = matches!(self.checked, 2..=4);
        let expected = match bad_key {
            _ if refused_first => self.checked,
            true => 8,
            false => return self.walked(key, (number, place)),
        };
        if number != expected {
            return Err(format!("quick lookup: {number}, meant was {expected}"));
        }
        if bad_key && refused_first {
            self.pair.met(before(number, 8));
        } else if bad_key && self.would_break(key) {
            self.pair.met(before(8, 18));
        }
        Ok(())
    }

    /// The answer for a good key behind a good frame.
    fn walked(&mut self, key: &[u8], answer: (u32, [u64; 4])) -> Outcome<()> {
        let (checked, number) = (self.checked, answer.0);
        let possible = match checked {
            0 | 7 => number <= 1,
            _ => true,
        };
        if !possible {
            return Err(format!(
                "quick lookup: {number}, and {checked} by the check"
            ));
        }
        if matches!(checked, 5..=7) {
            self.pair.met(refused(checked, number));
        }
        if !self.framed {
            return Ok(());
        }
        let walk = Walk::of(self.plan, self.pair.image(), key);
        if walk.answer() != answer {
            let meant = walk.answer();
            return Err(format!("quick lookup: {answer:?}, meant was {meant:?}"));
        }
        let events = walk.events();
        events.into_iter().for_each(|event| self.pair.met(event));
        Ok(())
    }

    /// The walk of a key that is refused before it.
    fn would_break(&self, key: &[u8]) -> bool {
        self.framed && Walk::of(self.plan, self.pair.image(), key).answer().0 == 18
    }
}
