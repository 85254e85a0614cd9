//! The live entries of an accepted image, read slot by slot from its bytes.

use std::ops::Range;

use crate::model::entry_bytes;
use crate::oracle::Oracle;
use crate::plan::Plan;
use crate::render::get;

#[derive(Clone, Copy, Debug, PartialEq)]
pub struct Live<'a> {
    pub segment: usize,
    pub tier: usize,
    pub slot: usize,
    pub chunk: usize,
    pub chunks: usize,
    pub key: &'a [u8],
    pub record: &'a [u8],
}

impl Live<'_> {
    /// The seven numbers of the list.
    pub fn row(&self) -> [u64; 7] {
        [
            self.segment,
            self.tier,
            self.slot,
            self.chunk,
            self.chunks,
            self.key.len(),
            self.record.len(),
        ]
        .map(|number| number as u64)
    }

    /// Where its own bytes stand in the image.
    pub fn bytes(&self, plan: &Plan) -> Range<usize> {
        let start = plan.chunk(self.tier, self.chunk);
        start..start + entry_bytes(self.key, self.record).len()
    }
}

/// All of them, in the order of the list.
pub fn entries<'a>(plan: &Plan, image: &'a [u8]) -> Vec<Live<'a>> {
    let segments = 0..plan.segments;
    segments
        .flat_map(|segment| entries_in(plan, image, segment))
        .collect()
}

/// Keys and records, sorted.
pub fn map<'a>(plan: &Plan, image: &'a [u8]) -> Vec<(&'a [u8], &'a [u8])> {
    let entries = entries(plan, image).into_iter();
    let mut map: Vec<_> = entries.map(|entry| (entry.key, entry.record)).collect();
    map.sort();
    map
}

/// The entry of a key.
pub fn entry_of<'a>(plan: &Plan, image: &'a [u8], key: &[u8]) -> Option<Live<'a>> {
    let mut entries = entries_in(plan, image, plan.parts(key).0).into_iter();
    entries.find(|entry| entry.key == key)
}

fn entries_in<'a>(plan: &Plan, image: &'a [u8], segment: usize) -> Vec<Live<'a>> {
    let chain = Oracle { plan, image }.chain(segment).into_iter();
    let slots = chain.flat_map(|tier| (0..plan.slots).map(move |slot| (tier, slot)));
    slots
        .filter_map(|(tier, slot)| entry_in(plan, image, (segment, tier, slot)))
        .collect()
}

fn entry_in<'a>(plan: &Plan, image: &'a [u8], place: (usize, usize, usize)) -> Option<Live<'a>> {
    let (segment, tier, slot) = place;
    let number = get(image, plan.slot(tier, slot), plan.slot_size);
    if number == 0 {
        return None;
    }
    let chunk = (number >> plan.key_bits) as usize;
    let (key, rest) = part(&image[plan.chunk(tier, chunk)..]);
    let (record, _) = part(rest);
    Some(Live {
        segment,
        tier,
        slot,
        chunk,
        chunks: plan.chunks_of(key.len(), record.len()),
        key,
        record,
    })
}

/// A length, which is left out, and as many bytes; then what follows.
fn part(bytes: &[u8]) -> (&[u8], &[u8]) {
    let last = bytes.iter().position(|&byte| byte < 0x80);
    let (length, rest) = bytes.split_at(last.map_or(0, |last| last + 1));
    let digits = length.iter().rev().map(|&byte| usize::from(byte & 0x7F));
    rest.split_at(digits.fold(0, |number, digit| number << 7 | digit))
}
