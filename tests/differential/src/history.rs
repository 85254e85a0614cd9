//! Histories of calls on an accepted image, held against a plain map.

mod bulks;
mod kinds;
mod pairs;
mod quick;
mod removals;
mod stores;

use std::collections::BTreeMap;

use crate::bulks::Course;
use crate::compare::{Outcome, Pair};
use crate::draw;
use crate::edit::{Deed, Edit};
use crate::empty_tiers::{Links, WentHome};
use crate::live::{self, Live};
use crate::plan::{Plan, length_size};
use crate::rng::Rng;
use crate::search_ends::Search;

pub struct History<'a, 'b> {
    pub rng: &'a mut Rng,
    /// It follows the bulks that are added.
    pub plan: Plan,
    pub keys: &'a [Vec<u8>],
    pub records: BTreeMap<Vec<u8>, Vec<u8>>,
    /// How many stores of a hundred are tight.
    pub tight: usize,
    /// How many calls of a hundred add a bulk.
    pub grows: usize,
    pub course: Course,
    pub went_home: WentHome,
    pub pair: Pair<'b>,
}

impl History<'_, '_> {
    pub fn run(&mut self, steps: usize) -> Outcome<()> {
        self.totals()?;
        let mut stores = 60;
        let pair_calls = if self.has_pairs() { 40 } else { 0 };
        for step in 0..steps {
            if self.rng.percent(4) {
                stores = *self.rng.pick(&[20, 40, 60, 90]);
            }
            match self.rng.below(100) {
                _ if self.rng.percent(self.grows) => _ = self.grow()?,
                _ if self.rng.percent(pair_calls) => self.ask_or_set()?,
                0..25 => self.lookup()?,
                25..30 => self.totals()?,
                30..34 => self.any_entry()?,
                _ if self.rng.percent(stores) => self.store()?,
                _ => self.remove()?,
            }
            self.quick_after(step)?;
        }
        self.totals()?;
        self.all_records()?;
        self.all_pairs()?;
        self.all_entries()?;
        let event = self.course.ended();
        event.into_iter().for_each(|event| self.pair.met(event));
        Ok(())
    }

    fn expect(&self, what: &str, number: u32, expected: u32) -> Outcome<()> {
        if number != expected {
            return Err(format!("{what}: both answer {number}, the map {expected}"));
        }
        Ok(())
    }

    fn lookup(&mut self) -> Outcome<()> {
        let key = draw::offered_key(self.rng, &self.plan, self.keys);
        self.lookup_of(&key)
    }

    fn lookup_of(&mut self, key: &[u8]) -> Outcome<()> {
        let (number, place) = self.pair.lookup(key)?;
        let [offset, length, _, _] = place;
        let refused = self.plan.offered_number(key.len(), None);
        let record = self.records.get(key);
        let absent = if record.is_some() { 0 } else { 1 };
        self.expect(
            "lookup",
            number,
            if refused != 0 { refused } else { absent },
        )?;
        let record = record.cloned();
        self.search_end(key, number, place)?;
        let Some(record) = record else {
            return Ok(());
        };
        let (start, end) = (offset as usize, (offset + length) as usize);
        if self.pair.image().get(start..end) != Some(&record) {
            return Err(format!(
                "lookup: {length} bytes at {offset} are not the record"
            ));
        }
        Ok(())
    }

    /// The tier and slot of a lookup that is not refused.
    fn search_end(&mut self, key: &[u8], number: u32, place: [u64; 4]) -> Outcome<()> {
        let search = Search {
            plan: &self.plan,
            image: self.pair.image(),
            key,
        };
        let events = match number {
            0 => search.is_at(place, head(key.len(), place[1] as usize))?,
            1 => search.ends_at(place)?,
            _ => return Ok(()),
        };
        events.into_iter().for_each(|event| self.pair.met(event));
        Ok(())
    }

    /// What an edit made of the low marks and the links.
    fn edited(
        &mut self,
        key: &[u8],
        deed: Deed,
        events: impl Fn(&Links) -> Vec<String>,
    ) -> Outcome<()> {
        let edit = Edit {
            plan: &self.plan,
            before: self.pair.before(),
            after: self.pair.image(),
            key,
            segment: self.plan.parts(key).0,
            deed,
        };
        let mut met = edit.marks()?;
        let links = Links::of(&edit);
        links.are_right()?;
        met.extend(events(&links));
        met.extend(self.went_home.follow(&links));
        met.into_iter().for_each(|event| self.pair.met(event));
        Ok(())
    }

    fn totals(&mut self) -> Outcome<()> {
        let (number, counts) = self.pair.check()?;
        self.expect("check", number, 0)?;
        let sizes = self
            .records
            .iter()
            .map(|(key, value)| (key.len(), value.len()));
        let chunks: usize = sizes
            .map(|(key, value)| self.plan.chunks_of(key, value))
            .sum();
        let [entries, marked, chained, free] = counts.map(|count| count as usize);
        if (entries, marked, chained + free) != (self.records.len(), chunks, self.plan.tiers()) {
            return Err(format!(
                "check: {counts:?}, but the map has {entries} and {chunks}"
            ));
        }
        Ok(())
    }

    fn any_entry(&mut self) -> Outcome<()> {
        let n = self.rng.below(self.records.len() + 2) as u64;
        self.entry(n)
    }

    fn entry(&mut self, n: u64) -> Outcome<()> {
        let (number, row) = self.pair.entry(n)?;
        let past = n >= self.records.len() as u64;
        self.expect("entry", number, u32::from(past))?;
        let entries = live::entries(&self.plan, self.pair.image());
        let expected = entries.get(n as usize).map_or([0; 7], Live::row);
        if row != expected {
            return Err(format!("entry {n}: {row:?}, meant was {expected:?}"));
        }
        Ok(())
    }

    fn all_records(&mut self) -> Outcome<()> {
        let limit = self.most_calls();
        let keys: Vec<_> = self.records.keys().take(limit).cloned().collect();
        keys.iter().try_for_each(|key| self.lookup_of(key))
    }

    /// Every line and some beyond; of a large image only the first and the
    /// last ones.
    fn all_entries(&mut self) -> Outcome<()> {
        let count = self.records.len() as u64;
        let limit = self.most_calls() as u64 / 2;
        for n in 0..count + 2 {
            if n < limit || n + limit > count {
                self.entry(n)?;
            }
        }
        for n in [u64::from(u32::MAX), 1 << 32, u64::MAX] {
            self.entry(n)?;
        }
        Ok(())
    }

    fn most_calls(&self) -> usize {
        (4_000_000 / (self.pair.image().len() + 1)).clamp(4, 400)
    }
}

/// How many bytes of an entry come before its record.
fn head(key: usize, value: usize) -> usize {
    length_size(key) + key + length_size(value)
}
