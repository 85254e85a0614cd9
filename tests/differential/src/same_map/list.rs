//! One list of calls for both stores. It is drawn before any is made, so it
//! cannot follow what one of the two answers.

use std::collections::BTreeMap;

use super::answers::Call;
use crate::channels;
use crate::draw;
use crate::kinds::Kind;
use crate::plan::Plan;
use crate::rng::Rng;

pub struct List<'a> {
    rng: &'a mut Rng,
    plan: &'a Plan,
    keys: &'a [Vec<u8>],
    /// What the stores hold if no call is answered 10: it aims the calls, and
    /// no answer is held against it.
    map: BTreeMap<Vec<u8>, Vec<u8>>,
    /// How many of a hundred: pair calls; stores among edits; tight stores.
    pair_calls: usize,
    stores: usize,
    tight: usize,
}

impl<'a> List<'a> {
    pub fn new(
        rng: &'a mut Rng,
        plan: &'a Plan,
        keys: &'a [Vec<u8>],
        map: BTreeMap<Vec<u8>, Vec<u8>>,
    ) -> List<'a> {
        let has_pairs = keys.iter().any(|key| channels::pair_of(key).is_some());
        let pair_calls = if has_pairs { *rng.pick(&[25, 60]) } else { 0 };
        let stores = *rng.pick(&[35, 60, 90]);
        let tight = *rng.pick(&[20, 50, 80]);
        List {
            rng,
            plan,
            keys,
            map,
            pair_calls,
            stores,
            tight,
        }
    }

    /// It ends with a lookup of each key, so that what the edits have left
    /// shows in answers.
    pub fn drawn(&mut self, length: usize) -> Vec<Call> {
        let mut list: Vec<Call> = (0..length).map(|_| self.call()).collect();
        list.extend(self.keys.iter().cloned().map(Call::QuickLookup));
        list
    }

    fn call(&mut self) -> Call {
        if self.rng.percent(self.pair_calls) {
            return self.pair_call();
        }
        match self.rng.below(100) {
            0..20 => Call::Lookup(self.offered_key()),
            20..28 => Call::QuickLookup(self.offered_key()),
            _ if self.rng.percent(self.stores) => self.store(),
            _ => self.removal(),
        }
    }

    fn offered_key(&mut self) -> Vec<u8> {
        draw::offered_key(self.rng, self.plan, self.keys)
    }

    fn pair_call(&mut self) -> Call {
        let (a, b) = channels::offered(self.rng, self.keys);
        match self.rng.below(10) {
            0..3 => Call::Ask(a, b),
            3..5 => Call::QuickAsk(a, b),
            _ => self.set(a, b),
        }
    }

    fn set(&mut self, a: u32, b: u32) -> Call {
        let delay = channels::offered_delay(self.rng);
        let record = channels::kept(a, b, delay);
        let fits = self.plan.offered_number(2, Some(record.len())) == 0;
        if fits && channels::refusals(a, b, delay).is_empty() {
            self.map.insert(channels::key(a, b), record);
        }
        Call::Set(a, b, delay)
    }

    fn store(&mut self) -> Call {
        let kind = match self.rng.percent(self.tight) {
            true => Kind::Tight,
            false => Kind::OnTheSpot,
        };
        let key = self.offered_key();
        let value = self.value_for(&key);
        if self.plan.offered_number(key.len(), Some(value.len())) == 0 {
            self.map.insert(key.clone(), value.clone());
        }
        Call::Store(kind, key, value)
    }

    /// For a present key often one of as many chunks or of one chunk less.
    fn value_for(&mut self, key: &[u8]) -> Vec<u8> {
        let (rng, plan) = (&mut *self.rng, self.plan);
        let old = self.map.get(key).map(Vec::len);
        let fewer = old.and_then(|old| {
            let chunks = plan.chunks_of(key.len(), old) - 1;
            plan.longest_value(key.len(), chunks)
        });
        match (old, fewer) {
            (Some(old), _) if rng.percent(30) => draw::value_of_as_many(rng, plan, key.len(), old),
            (_, Some(fewer)) if rng.percent(20) => rng.bytes(fewer),
            _ => draw::offered_value(rng, plan, key.len()),
        }
    }

    fn removal(&mut self) -> Call {
        let any = self.rng.below(self.map.len() + 1);
        let key = match self.map.keys().nth(any) {
            Some(key) if self.rng.percent(70) => key.clone(),
            _ => self.offered_key(),
        };
        self.map.remove(&key);
        Call::Remove(key)
    }
}
