//! Store and removal. Both look first and write last: nothing is written
//! before it is known that the call answers 0.

use crate::bits::{BitSet, set_marks};
use crate::check::{Accepted, accept};
use crate::record::{check_key, write_entry};
use crate::search::{Found, SlotEnd};
use crate::slot::HashParts;
use crate::tier::Tier;
use crate::{Answer, number};

/// What a store does with an old entry that takes as many chunks as the new.
#[derive(Clone, Copy, Debug, PartialEq, Eq)]
pub enum Kind {
    /// It writes over the old entry's bytes.
    OnTheSpot,
    /// It takes the old entry out first, as one of any other size.
    Tight,
}

/// An entry to be replaced or removed, free of the image it was found in.
#[derive(Clone, Copy)]
struct Old {
    tier: Tier,
    slot: usize,
    first_chunk: usize,
    chunks: usize,
}

impl From<Found<'_>> for Old {
    fn from(found: Found) -> Old {
        Old {
            tier: found.tier,
            slot: found.slot,
            first_chunk: found.entry.first_chunk,
            chunks: found.entry.chunks,
        }
    }
}

/// Where a new entry goes.
enum Room {
    Chained(Tier, usize),
    FreeTier(Tier),
}

pub fn remove(block: &[u8], image: &mut [u8], key: &[u8]) -> Answer<()> {
    let map = accept(block, image)?;
    check_key(key)?;
    let parts = map.frame.settings.hash_parts(key);
    let found = map.find(image, parts, key).map_err(|_| number::ABSENT)?;
    let old = Old::from(found);
    map.take_out(image, old);
    map.free_if_empty(image, parts.segment, &old.tier);
    Ok(())
}

pub fn store(kind: Kind, block: &[u8], image: &mut [u8], key: &[u8], value: &[u8]) -> Answer<()> {
    let map = accept(block, image)?;
    check_key(key)?;
    let settings = &map.frame.settings;
    let needed = settings.chunks_needed(key, value)?;
    let parts = settings.hash_parts(key);
    let old = map.find(image, parts, key).ok().map(Old::from);
    // Slot, marks and counters of as many chunks are right as they are.
    if let Some(old) = old.filter(|old| kind == Kind::OnTheSpot && old.chunks == needed) {
        map.write_at(image, &old.tier, old.first_chunk, key, value);
        return Ok(());
    }
    let room = map
        .room(image, parts.segment, needed, old)
        .ok_or(number::FULL)?;
    if let Some(old) = old {
        map.take_out(image, old);
    }
    let (tier, first_chunk) = match room {
        Room::Chained(tier, first_chunk) => (tier, first_chunk),
        Room::FreeTier(tier) => {
            map.chain_up(image, parts.segment, &tier);
            (tier, 0)
        }
    };
    map.write_at(image, &tier, first_chunk, key, value);
    map.put_in(image, &tier, parts, key, first_chunk, needed);
    // An empty tier has room for any entry. So if the old entry's tier is empty
    // now, an earlier one has taken the new entry, and the chain is still as
    // the check has read it.
    if let Some(old) = old {
        map.free_if_empty(image, parts.segment, &old.tier);
    }
    Ok(())
}

impl Accepted {
    /// The first tier that takes `needed` chunks once `old` is gone, else
    /// the first free tier.
    fn room(&self, image: &[u8], segment: usize, needed: usize, old: Option<Old>) -> Option<Room> {
        let settings = &self.frame.settings;
        for tier in self.chain(segment) {
            let mut full_slots = tier.entry_count(image) as usize;
            let mut marked = BitSet::marked(settings, image, &tier);
            if let Some(old) = old.filter(|old| old.tier.index == tier.index) {
                full_slots -= 1;
                marked.drop(old.first_chunk, old.chunks);
            }
            if full_slots > settings.slots - 2 {
                continue;
            }
            if let Some(first_chunk) = marked.clear_run(needed) {
                return Some(Room::Chained(tier, first_chunk));
            }
        }
        let free = *self.chains.free.first()?;
        Some(Room::FreeTier(self.frame.tier(free as usize)))
    }

    /// Clears the chunks and the slot of an entry; its bytes stay.
    fn take_out(&self, image: &mut [u8], old: Old) {
        let tier = &old.tier;
        set_marks(image, tier, old.first_chunk, old.chunks, false);
        self.empty_slot(image, tier, old.slot);
        let entries = tier.entry_count(image) - 1;
        self.set_counters(image, tier, entries);
    }

    /// Empties a slot and closes the hole: a later slot of the run that has
    /// its start at the hole or before it could not be reached any more, so
    /// it moves there and leaves the hole behind.
    fn empty_slot(&self, image: &mut [u8], tier: &Tier, slot: usize) {
        let settings = &self.frame.settings;
        let mut hole = slot;
        let mut place = settings.next_slot(hole);
        loop {
            let value = settings.slot_at(image, tier, place);
            if value == 0 {
                break;
            }
            let start = settings.start_slot(settings.lookup_key(value));
            if settings.slot_distance(start, place) >= settings.slot_distance(hole, place) {
                settings.set_slot(image, tier, hole, value);
                hole = place;
            }
            place = settings.next_slot(place);
        }
        settings.set_slot(image, tier, hole, 0);
    }

    /// Moves the first free tier to the end of a segment's chain. What its
    /// counters held before says nothing, but for its next.
    fn chain_up(&self, image: &mut [u8], segment: usize, tier: &Tier) {
        let chain = self.chains.of(segment);
        let last = self.frame.tier(chain[chain.len() - 1] as usize);
        let next_free = tier.next(image);
        let used = self.frame.used(image) + 1;
        self.frame.set_first_free(image, next_free);
        self.frame.set_used(image, used);
        last.set_next(image, tier.index as u64);
        tier.set_next(image, 0);
        tier.set_standing(image, last.index, segment, chain.len());
        tier.set_entry_count(image, 0);
    }

    /// Makes an extra tier the first free one if its last entry has gone. Its
    /// previous, segment and order stay: of a free tier they are not read. A
    /// main tier is never free.
    fn free_if_empty(&self, image: &mut [u8], segment: usize, tier: &Tier) {
        if tier.header.is_some() || tier.entry_count(image) > 0 {
            return;
        }
        self.unlink(image, segment, tier);
        let head = self.frame.first_free(image);
        let used = self.frame.used(image) - 1;
        tier.set_next(image, head);
        self.frame.set_first_free(image, tier.index as u64);
        self.frame.set_used(image, used);
    }

    /// Joins the neighbours of an extra tier in its chain. Every later tier
    /// then stands one place further to the front.
    fn unlink(&self, image: &mut [u8], segment: usize, tier: &Tier) {
        let chain = self.chains.of(segment);
        let place = chain.iter().position(|&index| index as usize == tier.index);
        let place = place.expect("a tier that had an entry is chained");
        let mut previous = self.frame.tier(chain[place - 1] as usize);
        let next = tier.next(image);
        previous.set_next(image, next);
        for (order, &index) in (place..).zip(&chain[place + 1..]) {
            let later = self.frame.tier(index as usize);
            later.set_standing(image, previous.index, segment, order);
            previous = later;
        }
    }

    /// Writes an entry from a chunk on, and nothing after its end.
    fn write_at(&self, image: &mut [u8], tier: &Tier, first: usize, key: &[u8], value: &[u8]) {
        let start = tier.space + first * self.frame.settings.chunk_size;
        write_entry(&mut image[start..], key, value);
    }

    /// Fills the empty slot that ends the search for the key, and marks the
    /// chunks.
    fn put_in(
        &self,
        image: &mut [u8],
        tier: &Tier,
        parts: HashParts,
        key: &[u8],
        first: usize,
        count: usize,
    ) {
        let settings = &self.frame.settings;
        let end = settings.find(image, tier, parts.lookup_key, key);
        let SlotEnd::Empty { place } = end else {
            unreachable!("an old entry of the key has been taken out");
        };
        let slot = settings.join_slot(parts.lookup_key, first);
        settings.set_slot(image, tier, place, slot);
        set_marks(image, tier, first, count, true);
        let entries = tier.entry_count(image) + 1;
        self.set_counters(image, tier, entries);
    }

    /// The low mark comes from the bits alone: the old one may have lagged.
    fn set_counters(&self, image: &mut [u8], tier: &Tier, entries: u32) {
        let marked = BitSet::marked(&self.frame.settings, image, tier);
        tier.set_entry_count(image, entries);
        tier.set_lowest_free(image, marked.next_clear(0));
    }
}
