//! The check of a whole image: frame, chains, then every tier.

use crate::bits::BitSet;
use crate::bytes::all_zero;
use crate::chains::Chains;
use crate::frame::Frame;
use crate::once::{Chain, Walks};
use crate::record::Entry;
use crate::settings::Settings;
use crate::tier::Tier;
use crate::{Answer, number};

/// An accepted image's frame and chains, and its four counts.
pub struct Accepted {
    pub frame: Frame,
    pub chains: Chains,
    pub counts: [u64; 4],
}

pub fn accept(block: &[u8], image: &[u8]) -> Answer<Accepted> {
    let frame = Frame::read(Settings::read(block)?, image)?;
    let chains = Chains::read(&frame, image)?;
    let (entries, marked) = Check {
        frame: &frame,
        image,
    }
    .all_tiers(&chains)?;
    let counts = [
        entries,
        marked,
        chains.chained_tiers() as u64,
        chains.free.len() as u64,
    ];
    Ok(Accepted {
        frame,
        chains,
        counts,
    })
}

/// What the tiers add up to.
struct Totals {
    entries: u64,
    marked: u64,
    /// Whether no rule of chunks and counters is broken so far.
    chunks_hold: bool,
}

/// What the slots of a tier add up to.
struct Contents {
    full_slots: u32,
    covered: BitSet,
    apart: bool,
}

struct Check<'a> {
    frame: &'a Frame,
    image: &'a [u8],
}

impl<'a> Check<'a> {
    /// Entries and marked chunks. One pass serves both numbers: a slot fault
    /// ends it at once, a chunk fault is only remembered, since a slot fault
    /// in a later tier would still come before it.
    fn all_tiers(&self, chains: &Chains) -> Answer<(u64, u64)> {
        let mut totals = Totals {
            entries: 0,
            marked: 0,
            chunks_hold: true,
        };
        for segment in 0..self.frame.settings.segments {
            self.chain(segment, chains.of(segment), &mut totals)
                .ok_or(number::SLOTS)?;
        }
        totals.chunks_hold &= chains
            .free
            .iter()
            .all(|&index| self.is_blank(index as usize));
        if !totals.chunks_hold {
            return Err(number::CHUNKS);
        }
        Ok((totals.entries, totals.marked))
    }

    /// Adds a chain, if the rules of slots and entries hold: for each tier by
    /// itself, and then no key has two slots.
    fn chain(&self, segment: usize, indexes: &[u16], totals: &mut Totals) -> Option<()> {
        let settings = &self.frame.settings;
        let mut walks = Walks::new(settings, indexes.len());
        let mut entries = 0;
        for &index in indexes {
            let tier = self.frame.tier(index as usize);
            let contents = self.contents(segment, &tier, &mut walks)?;
            let marked = BitSet::marked(settings, self.image, &tier);
            totals.chunks_hold &= self.counters_hold(&tier, &contents, &marked);
            totals.marked += marked.count();
            entries += contents.full_slots;
        }
        totals.entries += u64::from(entries);
        (walks.settled || self.keys_stand_once(indexes, entries)).then_some(())
    }

    fn keys_stand_once(&self, indexes: &[u16], entries: u32) -> bool {
        let tiers = indexes.iter().map(|&index| self.frame.tier(index as usize));
        let chain = Chain {
            settings: &self.frame.settings,
            image: self.image,
            tiers: tiers.collect(),
            entries: entries as usize,
        };
        chain.keys_stand_once()
    }

    /// The slots of a tier by themselves, in order. A run of full slots goes
    /// on over the wrap: one at slot 0 has begun with those at the end.
    fn contents(&self, segment: usize, tier: &Tier, walks: &mut Walks) -> Option<Contents> {
        let settings = &self.frame.settings;
        let full = BitSet::full_slots(settings, self.image, tier);
        if full.next_clear(0) == settings.slots {
            return None;
        }
        let mut covered = BitSet::empty(settings.chunks);
        let mut apart = true;
        let (mut run, mut run_end) = (full.run_at_end(), 0);
        let mut place = full.next_set(0);
        while place < settings.slots {
            run = if place == run_end { run + 1 } else { 1 };
            let entry = self.entry_of(segment, tier, place, run)?;
            walks.walk(settings, self.image, tier, place);
            apart &= covered.add(entry.first_chunk, entry.chunks);
            run_end = place + 1;
            place = full.next_set(run_end);
        }
        Some(Contents {
            full_slots: full.count() as u32,
            covered,
            apart,
        })
    }

    /// The entry of a full slot, if the two agree and no slot from its start
    /// up to itself is empty. It is the last of `run` full ones.
    fn entry_of(&self, segment: usize, tier: &Tier, place: usize, run: usize) -> Option<Entry<'a>> {
        let settings = &self.frame.settings;
        let slot = settings.slot_at(self.image, tier, place);
        let lookup_key = settings.lookup_key(slot);
        let start = settings.start_slot(lookup_key);
        let entry = settings.entry_at(self.image, tier, settings.first_chunk(slot))?;
        let parts = settings.hash_parts(entry.key);
        let holds = parts.segment == segment
            && parts.lookup_key == lookup_key
            && settings.slot_distance(start, place) < run;
        holds.then_some(entry)
    }

    fn counters_hold(&self, tier: &Tier, contents: &Contents, marked: &BitSet) -> bool {
        contents.apart
            && contents.covered.same_as(marked)
            && tier.entry_count(self.image) == contents.full_slots
            && self.low_mark_holds(tier, marked)
    }

    /// A low mark may lag behind the lowest clear chunk. A full tier has no
    /// such chunk, and its mark is the number of chunks, exactly.
    fn low_mark_holds(&self, tier: &Tier, marked: &BitSet) -> bool {
        let mark = tier.lowest_free(self.image);
        let exact = marked.next_clear(0);
        mark == exact as u64 || mark < exact as u64 && exact < self.frame.settings.chunks
    }

    /// Whether a free tier has neither a full slot nor a marked chunk.
    fn is_blank(&self, index: usize) -> bool {
        let settings = &self.frame.settings;
        let tier = self.frame.tier(index);
        let slots = &self.image[tier.slots..tier.slots + settings.slots * settings.slot_size];
        all_zero(slots) && BitSet::marked(settings, self.image, &tier).count() == 0
    }
}
