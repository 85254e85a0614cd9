//! Finding an entry by its key or by its place in the list.

use crate::check::{Accepted, accept};
use crate::record::{Entry, check_key};
use crate::settings::Settings;
use crate::slot::HashParts;
use crate::tier::Tier;
use crate::{Answer, number};

/// The slot that ended the search of a tier for a key.
#[derive(Clone, Copy, Debug)]
pub enum SlotEnd {
    /// The key's slot, and the number in it.
    Key { place: usize, slot: u64 },
    /// The first empty slot from the key's start: the tier lacks the key.
    Empty { place: usize },
}

/// Where an entry stands: its tier, its slot and its chunks.
#[derive(Clone, Copy, Debug)]
pub struct Found<'a> {
    pub tier: Tier,
    pub slot: usize,
    pub entry: Entry<'a>,
}

/// Where the search for an absent key ended. All tiers of the chain are
/// searched, so the tier is the last of them.
#[derive(Clone, Copy, Debug)]
pub struct Absent {
    pub tier: Tier,
    pub slot: usize,
}

impl Settings {
    /// Searches a tier for a key, upward from its start slot, wrapping. An
    /// empty slot must come, and the slots before must have been checked.
    pub fn find(&self, image: &[u8], tier: &Tier, lookup_key: u64, key: &[u8]) -> SlotEnd {
        let mut place = self.start_slot(lookup_key);
        let mut slot = self.slot_at(image, tier, place);
        while slot != 0 {
            if self.lookup_key(slot) == lookup_key
                && self.has_key(image, tier, self.first_chunk(slot), key)
            {
                return SlotEnd::Key { place, slot };
            }
            place = self.next_slot(place);
            slot = self.slot_at(image, tier, place);
        }
        SlotEnd::Empty { place }
    }
}

impl Accepted {
    /// The entry of a key, from whichever tier of its chain has it, or where
    /// the search for it ended.
    pub fn find<'a>(
        &self,
        image: &'a [u8],
        parts: HashParts,
        key: &[u8],
    ) -> Result<Found<'a>, Absent> {
        let settings = &self.frame.settings;
        let mut absent = None;
        for tier in self.chain(parts.segment) {
            match settings.find(image, &tier, parts.lookup_key, key) {
                SlotEnd::Key { place, slot } => return Ok(self.found(image, tier, place, slot)),
                SlotEnd::Empty { place } => absent = Some(Absent { tier, slot: place }),
            }
        }
        Err(absent.expect("every chain has its main tier"))
    }

    pub fn chain(&self, segment: usize) -> impl DoubleEndedIterator<Item = Tier> {
        let indexes = self.chains.of(segment).iter();
        indexes.map(|&index| self.frame.tier(index as usize))
    }

    fn found<'a>(&self, image: &'a [u8], tier: Tier, place: usize, slot: u64) -> Found<'a> {
        let settings = &self.frame.settings;
        let entry = settings.entry_at(image, &tier, settings.first_chunk(slot));
        Found {
            tier,
            slot: place,
            entry: entry.expect("the check has passed every entry"),
        }
    }

    fn nth_in_tier<'a>(&self, image: &'a [u8], tier: Tier, n: usize) -> Option<Found<'a>> {
        let settings = &self.frame.settings;
        let slots = (0..settings.slots).map(|place| (place, settings.slot_at(image, &tier, place)));
        let (place, slot) = slots.filter(|(_, slot)| *slot != 0).nth(n)?;
        Some(self.found(image, tier, place, slot))
    }
}

/// A number is the outer failure, an absent key the inner one.
pub fn find<'a>(block: &[u8], image: &'a [u8], key: &[u8]) -> Answer<Result<Found<'a>, Absent>> {
    let map = accept(block, image)?;
    check_key(key)?;
    let parts = map.frame.settings.hash_parts(key);
    Ok(map.find(image, parts, key))
}

/// An absent key is no failure here, since it has a tier and a slot.
pub fn lookup(block: &[u8], image: &[u8], key: &[u8]) -> Answer<(u32, [u64; 4])> {
    let (number, numbers) = match find(block, image, key)? {
        Ok(Found { tier, slot, entry }) => {
            (0, [entry.value_at, entry.value_length, tier.index, slot])
        }
        Err(Absent { tier, slot }) => (number::ABSENT, [0, 0, tier.index, slot]),
    };
    Ok((number, numbers.map(|number| number as u64)))
}

/// The entry counts of an accepted image are right, so whole tiers are
/// passed over by them.
pub fn nth_entry(block: &[u8], image: &[u8], n: u64) -> Answer<[u64; 7]> {
    let map = accept(block, image)?;
    let mut left = n;
    for segment in 0..map.frame.settings.segments {
        for tier in map.chain(segment) {
            let entries = u64::from(tier.entry_count(image));
            if left < entries {
                let found = map.nth_in_tier(image, tier, left as usize);
                return found
                    .map(|found| line(segment, &found))
                    .ok_or(number::ABSENT);
            }
            left -= entries;
        }
    }
    Err(number::ABSENT)
}

fn line(segment: usize, found: &Found) -> [u64; 7] {
    let entry = &found.entry;
    [
        segment,
        found.tier.index,
        found.slot,
        entry.first_chunk,
        entry.chunks,
        entry.key.len(),
        entry.value_length,
    ]
    .map(|number| number as u64)
}
