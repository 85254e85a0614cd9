//! What replacements must have come upon, by the kind of store.

use super::Replacement;
use crate::oracle::Oracle;
use crate::plan::length_size;
use crate::tally::came;

const ON_THE_SPOT: [&str; 9] = [
    "by a shorter record",
    "by a longer record",
    "by the same record",
    "by a record whose length takes a byte more",
    "by a record whose length takes a byte less",
    "though an earlier tier has room",
    "with no chunk clear and no tier free",
    "with other bytes than 0 of the old record left behind it",
    "with other bytes than 0 left at the end of its last chunk",
];
const MOVED: [&str; 2] = [
    "of fewer chunks moved though they would fit",
    "of more chunks moved though the chunks behind were clear",
];
const TIGHT: [&str; 6] = [
    "to a lower run",
    "to an earlier tier",
    "to another slot with its own chunks",
    "to its own slot and chunks, only entry bytes changed",
    "to its own slot and chunks, a low mark changed",
    "with no chunk clear and no tier free",
];
const SET: &str = "a set of a delay replaced on the spot";

fn on_the_spot(event: &str) -> String {
    format!("a replacement on the spot {event}")
}

fn moved(event: &str) -> String {
    format!("a replacement by the default store {event}")
}

fn tight(event: &str) -> String {
    format!("a tight replacement of as many chunks {event}")
}

pub fn planned() -> Vec<String> {
    let kinds = ON_THE_SPOT.map(on_the_spot).into_iter();
    let kinds = kinds.chain(MOVED.map(moved)).chain(TIGHT.map(tight));
    kinds
        .chain([set_on_the_spot(), later([10, 0]), later([0, 10])])
        .chain([later_at_home()])
        .collect()
}

pub fn set_on_the_spot() -> String {
    SET.to_string()
}

/// A store after a replacement by each of the kinds, with its two numbers.
pub fn later([on_the_spot, tight]: [u32; 2]) -> String {
    format!("a later store answered {on_the_spot} after one on the spot, {tight} after a tight one")
}

/// The same where the tight one has sent home its tier, which is then free.
pub fn later_at_home() -> String {
    later([10, 0]) + " that sent its tier home"
}

impl Replacement<'_> {
    pub(super) fn events_on_the_spot(&self) -> Vec<String> {
        let (old, new) = (self.old.record.len(), self.new.record.len());
        let (old_size, new_size) = (length_size(old), length_size(new));
        let events = [
            new < old,
            new > old,
            self.new.record == self.old.record,
            new_size > old_size,
            new_size < old_size,
            self.oracle().has_earlier_room(&self.old),
            self.oracle().is_full(),
            self.leaves_old_bytes(),
            self.leaves_last_bytes(),
        ];
        came(ON_THE_SPOT, events, on_the_spot)
    }

    pub(super) fn events_moved(&self) -> Vec<String> {
        let (old, new) = (&self.old, &self.new);
        let stays = (old.tier, old.chunk) == (new.tier, new.chunk);
        let end = old.chunk + new.chunks;
        let mut behind = old.chunk + old.chunks..end;
        let clear_behind =
            end <= self.plan.chunks && behind.all(|chunk| !self.oracle().mark(old.tier, chunk));
        let events = [
            !stays && new.chunks < old.chunks,
            !stays && new.chunks > old.chunks && clear_behind,
        ];
        came(MOVED, events, moved)
    }

    pub(super) fn events_tight(&self) -> Vec<String> {
        let (old, new) = (&self.old, &self.new);
        let same_tier = old.tier == new.tier;
        let same_chunks = same_tier && old.chunk == new.chunk;
        let same_slot = same_chunks && old.slot == new.slot;
        let changed = self.before != self.after;
        let outside = self.changed_outside().is_some();
        let events = [
            same_tier && new.chunk < old.chunk,
            !same_tier,
            same_chunks && !same_slot,
            same_slot && changed && !outside,
            same_slot && outside,
            self.oracle().is_full(),
        ];
        came(TIGHT, events, tight)
    }

    fn oracle(&self) -> Oracle<'_> {
        Oracle {
            plan: self.plan,
            image: self.before,
        }
    }

    /// The ends of the new entry, of the old one and of their last chunk.
    fn ends(&self) -> (usize, usize, usize) {
        let (old, new) = (&self.old, &self.new);
        let chunk_end = self.plan.chunk(old.tier, old.chunk + old.chunks);
        (
            new.bytes(self.plan).end,
            old.bytes(self.plan).end,
            chunk_end,
        )
    }

    fn leaves_old_bytes(&self) -> bool {
        let (end, old_end, _) = self.ends();
        end < old_end && has_other_than_0(&self.after[end..old_end])
    }

    fn leaves_last_bytes(&self) -> bool {
        let (end, old_end, chunk_end) = self.ends();
        has_other_than_0(&self.after[end.max(old_end)..chunk_end])
    }
}

fn has_other_than_0(bytes: &[u8]) -> bool {
    bytes.iter().any(|&byte| byte != 0)
}
