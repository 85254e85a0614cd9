//! What a run has met, and what a run of the default length must meet.

use std::collections::BTreeMap;

use crate::bulks;
use crate::chains;
use crate::channels;
use crate::compare::Outcome;
use crate::damage::{DAMAGES, WALK_DAMAGES};
use crate::defects::DEFECTS;
use crate::empty_tiers;
use crate::lengths;
use crate::low_marks;
use crate::on_the_spot;
use crate::quick;
use crate::same_map;
use crate::search_ends;

/// The calls, and the numbers that each may answer.
pub const CALLS: [(&str, &[u32]); 11] = [
    ("check", &[0, 2, 3, 4, 5, 6, 7]),
    ("lookup", &[0, 1, 2, 3, 4, 5, 6, 7, 8]),
    ("store", &[0, 2, 3, 4, 5, 6, 7, 8, 9, 10]),
    ("store_tight", &[0, 2, 3, 4, 5, 6, 7, 8, 9, 10]),
    ("remove", &[0, 1, 2, 3, 4, 5, 6, 7, 8]),
    ("entry", &[0, 1, 2, 3, 4, 5, 6, 7]),
    ("delay", &[0, 1, 2, 3, 4, 5, 6, 7, 11, 12]),
    ("set_delay", &[0, 2, 3, 4, 5, 6, 7, 9, 10, 11, 12]),
    ("grow", &[0, 2, 3, 4, 5, 6, 7, 13]),
    ("quick_lookup", &[0, 1, 2, 3, 4, 8, 18]),
    ("quick_delay", &[0, 1, 2, 3, 4, 11, 12, 18]),
];
pub const QUICK_LOOKUP: usize = 9;
pub const QUICK_DELAY: usize = 10;
const NUMBERS: usize = 19;

#[derive(Default)]
pub struct Tally {
    /// How often each number was answered, by call.
    counts: [[u64; NUMBERS]; CALLS.len()],
    pub hashes: u64,
    /// How often each planned fault was made.
    pub faults: BTreeMap<&'static str, u64>,
    /// How often what is planned for lengths, low marks, searches, the kinds
    /// of store, further bulks, empty tiers, the pair calls, the quick ones,
    /// two stores of one map and full chains came up.
    pub met: BTreeMap<String, u64>,
}

impl Tally {
    pub fn note(&mut self, call: usize, number: u32) -> Outcome<()> {
        let (name, numbers) = CALLS[call];
        if !numbers.contains(&number) {
            return Err(format!("{name}: number {number} is none of {numbers:?}"));
        }
        self.counts[call][number as usize] += 1;
        Ok(())
    }

    /// Counts what came up.
    pub fn meet(&mut self, events: Vec<String>) {
        for event in events {
            *self.met.entry(event).or_default() += 1;
        }
    }

    /// Adds what another has counted of answers.
    pub fn add(&mut self, other: Tally) {
        let counts = self.counts.iter_mut().flatten();
        for (count, more) in counts.zip(other.counts.iter().flatten()) {
            *count += more;
        }
    }

    /// A number that a call may answer and has not, or something planned
    /// that did not come up.
    pub fn missing(&self) -> Option<String> {
        let calls = CALLS.iter().zip(&self.counts);
        let numbers = calls.flat_map(|(&(name, numbers), counts)| {
            let absent = numbers.iter().filter(|&&n| counts[n as usize] == 0);
            absent.map(move |number| format!("number {number} of {name}"))
        });
        let damages = DAMAGES.iter().map(|(name, _)| *name);
        let damages = damages.chain(WALK_DAMAGES.iter().map(|(name, _)| *name));
        let faults = damages.chain(DEFECTS.iter().map(|(name, _)| *name));
        let faults = faults.filter(|name| !self.faults.contains_key(name));
        let planned = channels::planned().into_iter();
        let planned = planned
            .chain(bulks::planned())
            .chain(empty_tiers::planned())
            .chain(lengths::planned())
            .chain(low_marks::planned())
            .chain(on_the_spot::planned())
            .chain(quick::planned())
            .chain(search_ends::planned());
        let planned = planned.filter(|name| !self.met.contains_key(name));
        numbers
            .chain(faults.map(str::to_string))
            .chain(planned)
            .next()
            .or_else(|| self.missing_of(same_map::planned()))
            .or_else(|| self.missing_of(chains::planned()))
    }

    /// Something planned that did not come up.
    pub fn missing_of(&self, planned: Vec<String>) -> Option<String> {
        let mut planned = planned.into_iter();
        planned.find(|name| !self.met.contains_key(name))
    }

    pub fn print(&self) {
        let titles: String = CALLS
            .iter()
            .map(|(call, _)| format!("{call:>13}"))
            .collect();
        println!("number{titles}");
        for number in (0..NUMBERS).filter(|&number| is_answered(number as u32)) {
            let line: String = self
                .counts
                .iter()
                .map(|counts| format!("{:>13}", counts[number]))
                .collect();
            println!("{number:>6}{line}");
        }
        println!("hashes {}", self.hashes);
        for (fault, count) in &self.faults {
            println!("{count:>6} times {fault}");
        }
        self.print_met();
    }

    pub fn print_met(&self) {
        for (what, count) in &self.met {
            println!("{count:>6} times {what}");
        }
    }
}

/// Some call may answer it.
fn is_answered(number: u32) -> bool {
    CALLS.iter().any(|(_, numbers)| numbers.contains(&number))
}

/// Those of the planned events that came up, by their names.
pub fn came<const N: usize>(
    events: [&str; N],
    came: [bool; N],
    name: impl Fn(&str) -> String,
) -> Vec<String> {
    let events = events.into_iter().zip(came).filter(|(_, came)| *came);
    events.map(|(event, _)| name(event)).collect()
}
