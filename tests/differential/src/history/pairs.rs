//! Asks and sets of delays by pair, held against the same plain map as the
//! calls with keys.

use super::History;
use crate::channels;
use crate::compare::Outcome;
use crate::kinds::{Call, Kind};
use crate::on_the_spot;

impl History<'_, '_> {
    pub fn has_pairs(&self) -> bool {
        self.keys.iter().any(|key| channels::pair_of(key).is_some())
    }

    pub fn ask_or_set(&mut self) -> Outcome<()> {
        let (a, b) = channels::offered(self.rng, self.keys);
        if self.rng.percent(60) {
            self.both_orders(a, b)
        } else {
            self.set(a, b)
        }
    }

    pub fn all_pairs(&mut self) -> Outcome<()> {
        let pairs = self.keys.iter().filter_map(|key| channels::pair_of(key));
        let pairs: Vec<_> = pairs.take(self.most_calls() / 4).collect();
        pairs
            .into_iter()
            .try_for_each(|(a, b)| self.both_orders(a, b))
    }

    /// Both orders, with no set between the two.
    fn both_orders(&mut self, a: u32, b: u32) -> Outcome<()> {
        let one = self.ask(a, b)?;
        let other = self.ask(b, a)?;
        if let (Some(one), Some(other)) = (one, other)
            && i64::from(one) + i64::from(other) != 0
        {
            return Err(format!("{a} {b}: {one} and {other} do not sum to 0"));
        }
        Ok(())
    }

    fn ask(&mut self, a: u32, b: u32) -> Outcome<Option<i32>> {
        let (number, delay) = self.pair.delay(a, b)?;
        let record = self.records.get(&channels::key(a, b));
        let (expected, kind) = match (channels::no_pair(a, b), record) {
            (Some(kind), _) => (11, Some(kind)),
            (None, None) => (1, None),
            (None, Some(record)) => match channels::no_delay(record) {
                Some(kind) => (12, Some(kind)),
                None => (0, None),
            },
        };
        self.expect("delay", number, expected)?;
        if number == 0 && record != Some(&channels::kept(a, b, delay)) {
            return Err(format!(
                "delay of {a} {b}: {delay}, but the map has {record:?}"
            ));
        }
        if let Some(kind) = kind {
            self.pair.met(kind.to_string());
        }
        Ok((number == 0).then_some(delay))
    }

    fn set(&mut self, a: u32, b: u32) -> Outcome<()> {
        let delay = channels::offered_delay(self.rng);
        let (key, record) = (channels::key(a, b), channels::kept(a, b, delay));
        let mut numbers = channels::refusals(a, b, delay);
        let place = self.place_for(Kind::OnTheSpot, &key, &record);
        match self.plan.offered_number(key.len(), Some(record.len())) {
            0 if place.is_none() => numbers.push(10),
            0 => {}
            refused => numbers.push(refused),
        }
        let number = self.pair.set_delay(a, b, delay)?;
        let first = numbers.first().copied().unwrap_or(0);
        self.expect("set", number, first)?;
        for &later in numbers.iter().skip(1) {
            self.pair.met(channels::before(first, later));
        }
        self.not_full(&key, &record, number)?;
        if let (0, Some(place)) = (number, place) {
            self.is_a_store(&key, &record)?;
            self.stored(Call::SetDelay, key, record, place)?;
        }
        Ok(())
    }

    /// A set has left what the default store of its record leaves.
    fn is_a_store(&mut self, key: &[u8], record: &[u8]) -> Outcome<()> {
        let before = self.pair.before();
        let (number, image) = self.pair.store_on(before, Kind::OnTheSpot, key, record)?;
        if number != 0 || image != self.pair.image() {
            return Err(format!(
                "set: a store answers {number} or leaves other bytes"
            ));
        }
        if self.is_as_many(key, record) {
            self.pair.met(on_the_spot::set_on_the_spot());
        }
        Ok(())
    }
}
