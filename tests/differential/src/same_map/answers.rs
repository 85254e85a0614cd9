//! A call of the list, and what of its answer must be the same in both
//! stores.

use super::runs::Run;
use crate::channels;
use crate::compare::{Outcome, short};
use crate::kinds::Kind;

pub enum Call {
    Lookup(Vec<u8>),
    QuickLookup(Vec<u8>),
    Store(Kind, Vec<u8>, Vec<u8>),
    Remove(Vec<u8>),
    Ask(u32, u32),
    QuickAsk(u32, u32),
    Set(u32, u32, i32),
}

/// Number, record and delay are compared; offset, length, tier and slot of a
/// lookup are not.
#[derive(Default)]
pub struct Answer {
    pub number: u32,
    pub record: Vec<u8>,
    pub delay: i32,
    pub place: Option<[u64; 4]>,
}

impl Answer {
    pub fn agrees(&self, other: &Answer) -> bool {
        let numbers = |answer: &Answer| (answer.number, answer.delay);
        numbers(self) == numbers(other) && self.record == other.record
    }

    /// For a difference: of a long record the first bytes alone.
    pub fn told(&self) -> String {
        let first = &self.record[..self.record.len().min(16)];
        format!(
            "{}, {} bytes {first:02X?}, delay {}",
            self.number,
            self.record.len(),
            self.delay
        )
    }
}

impl Call {
    pub fn name(&self) -> &'static str {
        match self {
            Call::Lookup(_) => "lookup",
            Call::QuickLookup(_) => "quick_lookup",
            Call::Store(kind, ..) => kind.name(),
            Call::Remove(_) => "remove",
            Call::Ask(..) => "delay",
            Call::QuickAsk(..) => "quick_delay",
            Call::Set(..) => "set_delay",
        }
    }

    /// For a difference: the call and its key.
    pub fn told(&self) -> String {
        format!("{} of {}", self.name(), short(&self.key()))
    }

    /// The key that the call is about.
    pub fn key(&self) -> Vec<u8> {
        match self {
            Call::Lookup(key) | Call::QuickLookup(key) => key.clone(),
            Call::Store(_, key, _) | Call::Remove(key) => key.clone(),
            &Call::Ask(a, b) | &Call::QuickAsk(a, b) => channels::key(a, b),
            &Call::Set(a, b, _) => channels::key(a, b),
        }
    }

    pub fn is_edit(&self) -> bool {
        matches!(self, Call::Store(..) | Call::Remove(_) | Call::Set(..))
    }

    pub fn made_on(&self, run: &mut impl Run) -> Outcome<Answer> {
        let edited = |number| Answer {
            number,
            ..Answer::default()
        };
        match self {
            Call::Lookup(key) => {
                let found = run.lookup(key)?;
                looked_up(run.image(), found)
            }
            Call::QuickLookup(key) => {
                let found = run.quick_lookup(key)?;
                looked_up(run.image(), found)
            }
            Call::Store(kind, key, value) => run.store(*kind, key, value).map(edited),
            Call::Remove(key) => run.remove(key).map(edited),
            &Call::Ask(a, b) => run.delay(a, b).map(asked),
            &Call::QuickAsk(a, b) => run.quick_delay(a, b).map(asked),
            &Call::Set(a, b, delay) => run.set_delay(a, b, delay).map(edited),
        }
    }
}

fn looked_up(image: &[u8], (number, place): (u32, [u64; 4])) -> Outcome<Answer> {
    let [offset, length, ..] = place.map(|number| number as usize);
    let record = image.get(offset..offset.saturating_add(length));
    let record = record.ok_or(format!("lookup: no record at {place:?}"))?;
    Ok(Answer {
        number,
        record: record.to_vec(),
        place: Some(place),
        ..Answer::default()
    })
}

fn asked((number, delay): (u32, i32)) -> Answer {
    Answer {
        number,
        delay,
        ..Answer::default()
    }
}
