//! A quick lookup and a quick ask after each step of a history, held to the
//! plain map. A checked lookup follows each edit, and the quick one is held to
//! it in all its numbers; so is each ask.

use super::History;
use crate::channels;
use crate::compare::Outcome;

impl History<'_, '_> {
    /// One key of the case after the other.
    pub fn quick_after(&mut self, step: usize) -> Outcome<()> {
        let key = &self.keys[step % self.keys.len()];
        let (number, place) = self.pair.quick_lookup(key)?;
        let [offset, length, ..] = place.map(|number| number as usize);
        let found = (number == 0).then(|| &self.pair.image()[offset..offset + length]);
        if found != self.records.get(key).map(Vec::as_slice) {
            return Err(format!("quick lookup: {number}, not what the map has"));
        }
        match channels::pair_of(key) {
            Some((a, b)) => self.quick_ask(a, b),
            None => Ok(()),
        }
    }

    fn quick_ask(&mut self, a: u32, b: u32) -> Outcome<()> {
        let (number, delay) = self.pair.quick_delay(a, b)?;
        let record = self.records.get(&channels::key(a, b));
        let expected = match record {
            None => 1,
            Some(record) if channels::no_delay(record).is_some() => 12,
            Some(_) => 0,
        };
        self.expect("quick delay", number, expected)?;
        if number == 0 && record != Some(&channels::kept(a, b, delay)) {
            return Err(format!("quick delay: {delay}, but the map has {record:?}"));
        }
        Ok(())
    }
}
