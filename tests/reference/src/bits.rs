//! Sets of chunks or of slots, 64 to a word, and the free list of a tier.

use crate::bytes::all_zero;
use crate::settings::Settings;
use crate::tier::Tier;

/// 4,096 bits, and one word more so that a range may be masked in pairs.
const WORDS: usize = 65;

pub struct BitSet {
    words: [u64; WORDS],
    /// How many bits there are; none from here on is ever set.
    size: usize,
}

impl BitSet {
    pub fn empty(size: usize) -> BitSet {
        BitSet {
            words: [0; WORDS],
            size,
        }
    }

    /// The full slots of a tier.
    pub fn full_slots(settings: &Settings, image: &[u8], tier: &Tier) -> BitSet {
        let slots = &image[tier.slots..tier.slots + settings.slots * settings.slot_size];
        let mut set = BitSet::empty(settings.slots);
        if settings.slot_size == 4 {
            set.add_full::<4>(slots);
        } else {
            set.add_full::<8>(slots);
        }
        set
    }

    fn add_full<const SLOT: usize>(&mut self, slots: &[u8]) {
        for (group, slots) in slots.as_chunks::<SLOT>().0.chunks(16).enumerate() {
            // Most groups of a sparse tier end here.
            if all_zero(slots.as_flattened()) {
                continue;
            }
            let mut bits = 0;
            for (place, slot) in slots.iter().enumerate() {
                bits |= u64::from(*slot != [0; SLOT]) << place;
            }
            self.words[group / 4] |= bits << (group % 4 * 16);
        }
    }

    /// The marked chunks of a tier, without the bits behind the last chunk.
    pub fn marked(settings: &Settings, image: &[u8], tier: &Tier) -> BitSet {
        let mut set = BitSet::empty(settings.chunks);
        let list = &image[tier.list..tier.list + settings.chunks.div_ceil(8)];
        let (words, rest) = list.as_chunks::<8>();
        for (word, bytes) in set.words.iter_mut().zip(words) {
            *word = u64::from_le_bytes(*bytes);
        }
        for (place, byte) in rest.iter().enumerate() {
            set.words[words.len()] |= u64::from(*byte) << (8 * place);
        }
        if !settings.chunks.is_multiple_of(64) {
            set.words[settings.chunks / 64] &= (1 << (settings.chunks % 64)) - 1;
        }
        set
    }

    /// Adds a range of at most 64; false if one was there already.
    pub fn add(&mut self, first: usize, count: usize) -> bool {
        let (low, high) = range_masks(first, count);
        let word = first / 64;
        let apart = self.words[word] & low == 0 && self.words[word + 1] & high == 0;
        self.words[word] |= low;
        self.words[word + 1] |= high;
        apart
    }

    pub fn drop(&mut self, first: usize, count: usize) {
        let (low, high) = range_masks(first, count);
        self.words[first / 64] &= !low;
        self.words[first / 64 + 1] &= !high;
    }

    pub fn same_as(&self, other: &BitSet) -> bool {
        let used = self.size.div_ceil(64);
        self.words[..used] == other.words[..used]
    }

    pub fn count(&self) -> u64 {
        let used = &self.words[..self.size.div_ceil(64)];
        used.iter().map(|word| u64::from(word.count_ones())).sum()
    }

    /// The first place from `from` on that is not in the set, or the size.
    pub fn next_clear(&self, from: usize) -> usize {
        self.next(from, u64::MAX)
    }

    /// The first place from `from` on that is in the set, or the size.
    pub fn next_set(&self, from: usize) -> usize {
        self.next(from, 0)
    }

    /// The first place from `from` on whose bit differs from `flip`.
    fn next(&self, from: usize, flip: u64) -> usize {
        let mut word = from / 64;
        let mut bits = (self.words[word] ^ flip) & (u64::MAX << (from % 64));
        while bits == 0 && word < self.size / 64 {
            word += 1;
            bits = self.words[word] ^ flip;
        }
        (64 * word + bits.trailing_zeros() as usize).min(self.size)
    }

    /// How many places at the end are in the set without a gap.
    pub fn run_at_end(&self) -> usize {
        let from_the_end = (0..self.size).rev();
        from_the_end
            .take_while(|place| self.words[place / 64] >> (place % 64) & 1 == 1)
            .count()
    }

    /// The lowest run of `count` places outside the set.
    pub fn clear_run(&self, count: usize) -> Option<usize> {
        let mut first = self.next_clear(0);
        while first + count <= self.size {
            let end = self.next_set(first);
            if end - first >= count {
                return Some(first);
            }
            first = self.next_clear(end);
        }
        None
    }
}

/// A range as masks of its first word and the one after it.
fn range_masks(first: usize, count: usize) -> (u64, u64) {
    let wide = (u128::MAX >> (128 - count)) << (first % 64);
    (wide as u64, (wide >> 64) as u64)
}

/// Marks or clears a range of chunks in a free list, bit by bit of each byte
/// so that the bits around it stay.
pub fn set_marks(image: &mut [u8], tier: &Tier, first: usize, count: usize, marked: bool) {
    let end = first + count;
    let mut chunk = first;
    while chunk < end {
        let stop = end.min((chunk / 8 + 1) * 8);
        let mask = (0xFFu8 >> (8 - (stop - chunk))) << (chunk % 8);
        let byte = &mut image[tier.list + chunk / 8];
        *byte = if marked { *byte | mask } else { *byte & !mask };
        chunk = stop;
    }
}
