//! Quick asks for a pair: the walk's number, then that of the record.

use super::walk::{End, Walk};
use super::{PASSED, Quick, before, no_delay};
use crate::channels;
use crate::compare::Outcome;

impl Quick<'_, '_> {
    pub fn ask(&mut self, a: u32, b: u32) -> Outcome<()> {
        let answer = self.pair.quick_delay(a, b)?;
        let no_pair = channels::no_pair(a, b).is_some();
        let refused_first = matches!(self.checked, 2..=4);
        let expected = match no_pair {
            _ if refused_first => self.checked,
            true => 11,
            false => return self.asked(a, b, answer),
        };
        if answer.0 != expected {
            return Err(format!("quick delay: {answer:?}, meant was {expected}"));
        }
        if no_pair && refused_first {
            self.pair.met(before(expected, 11));
        } else if no_pair && self.would_break(&channels::key(a, b)) {
            self.pair.met(before(11, 18));
        }
        Ok(())
    }

    /// The answer for a pair behind a good frame.
    fn asked(&mut self, a: u32, b: u32, answer: (u32, i32)) -> Outcome<()> {
        if !self.framed {
            return Ok(());
        }
        let key = channels::key(a, b);
        let walk = Walk::of(self.plan, self.pair.image(), &key);
        let (expected, events) = walk.delay();
        let right = match answer {
            (0, delay) => expected == 0 && walk.record() == channels::kept(a, b, delay),
            (number, _) => expected == number,
        };
        if !right {
            return Err(format!("quick delay: {answer:?}, meant was {expected}"));
        }
        events.into_iter().for_each(|event| self.pair.met(event));
        Ok(())
    }
}

impl Walk<'_> {
    /// The record of a key that is found.
    fn record(&self) -> &[u8] {
        self.met().map_or(&[], |met| met.stored.value)
    }

    /// The number of a quick ask by this walk, and what came up.
    fn delay(&self) -> (u32, Vec<String>) {
        let last = &self.last().met;
        match self.end {
            End::Found(_) => {
                let event = no_delay(self.record());
                (if event.is_some() { 12 } else { 0 }, Vec::from_iter(event))
            }
            End::Absent(_) => {
                let mut passed = last.iter().filter(|met| met.same);
                let passed = passed.any(|met| channels::no_delay(met.stored.value).is_some());
                (1, Vec::from_iter(passed.then(|| PASSED.to_string())))
            }
            End::BrokenEntry(place) => {
                let mut behind = last[place..].iter().map(|met| &met.stored);
                let no_delay = behind.any(|stored| {
                    let known = stored.key == self.key && !stored.value.is_empty();
                    known && channels::no_delay(stored.value).is_some()
                });
                (18, Vec::from_iter(no_delay.then(|| before(18, 12))))
            }
            _ => (18, Vec::new()),
        }
    }
}
