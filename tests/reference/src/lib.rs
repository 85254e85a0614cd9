//! An independent implementation of the lent map image: check, lookup,
//! store (on the spot or tight), remove, list, one more bulk and delays by
//! pair, over a settings block and an image of any bytes.
//!
//! Every call but the two quick ones settles the whole image first (see
//! [`check`]) and works on it afterwards without a further doubt: what the
//! check has passed is indexed directly, and no offset can fall outside. The
//! quick ones settle the frame and test the rest as they come to it.

#![forbid(unsafe_code)]

mod bits;
mod bytes;
mod chains;
mod check;
mod edit;
mod frame;
mod grow;
mod hash;
mod leb128;
mod once;
mod pairs;
mod quick;
mod record;
mod search;
mod settings;
mod slot;
mod tier;

#[cfg(test)]
mod tests;

use edit::Kind;

/// The numbers that an answer can carry besides 0.
mod number {
    pub const ABSENT: u32 = 1;
    pub const BLOCK: u32 = 2;
    pub const FIELD: u32 = 3;
    pub const FRAME: u32 = 4;
    pub const CHAINS: u32 = 5;
    pub const SLOTS: u32 = 6;
    pub const CHUNKS: u32 = 7;
    pub const KEY: u32 = 8;
    pub const VALUE: u32 = 9;
    pub const FULL: u32 = 10;
    pub const PAIR: u32 = 11;
    pub const DELAY: u32 = 12;
    pub const BULK: u32 = 13;
    pub const WALK: u32 = 18;
}

/// A number from [`number`] as the failure.
type Answer<T> = Result<T, u32>;

/// Entries, marked chunks, chained tiers and free tiers of an accepted image.
pub fn check(block: &[u8], image: &[u8]) -> (u32, [u64; 4]) {
    numbers(check::accept(block, image).map(|map| map.counts))
}

/// Offset and length of the record under `key`, tier and slot of its entry.
/// An absent key has offset and length 0, and tier and slot say where the
/// search ended.
pub fn lookup(block: &[u8], image: &[u8], key: &[u8]) -> (u32, [u64; 4]) {
    search::lookup(block, image, key).unwrap_or_else(|number| (number, [0; 4]))
}

/// The same without the check of the whole image: the walk along the key's
/// chain alone is tested. On an accepted image it answers as [`lookup`].
pub fn quick_lookup(block: &[u8], image: &[u8], key: &[u8]) -> (u32, [u64; 4]) {
    quick::lookup(block, image, key).unwrap_or_else(|number| (number, [0; 4]))
}

/// Puts `value` under `key`. An earlier entry that takes as many chunks is
/// written over on the spot; any other is replaced as by [`store_tight`].
pub fn store(block: &[u8], image: &mut [u8], key: &[u8], value: &[u8]) -> u32 {
    let stored = edit::store(Kind::OnTheSpot, block, image, key, value);
    stored.err().unwrap_or(0)
}

/// Puts `value` under `key`. An earlier entry is taken out first whatever
/// its size, so that the new one goes to the lowest run. Its tier, if that is
/// left empty, is freed as by [`remove`].
pub fn store_tight(block: &[u8], image: &mut [u8], key: &[u8], value: &[u8]) -> u32 {
    let stored = edit::store(Kind::Tight, block, image, key, value);
    stored.err().unwrap_or(0)
}

/// Drops the entry of `key`. An extra tier that is left empty leaves its
/// chain and becomes the first free one.
pub fn remove(block: &[u8], image: &mut [u8], key: &[u8]) -> u32 {
    edit::remove(block, image, key).err().unwrap_or(0)
}

/// Adds one bulk behind the last. Its tiers are the first of the free chain
/// from then on; the map stays as it was.
pub fn grow(block: &[u8], image: &mut [u8]) -> u32 {
    grow::grow(block, image).err().unwrap_or(0)
}

/// Segment, tier, slot, first chunk, chunks, key length and value length of
/// the `n`-th live entry.
pub fn entry(block: &[u8], image: &[u8], n: u64) -> (u32, [u64; 7]) {
    numbers(search::nth_entry(block, image, n))
}

/// The delay of channels `a` and `b`, in that order.
pub fn delay(block: &[u8], image: &[u8], a: u32, b: u32) -> (u32, i32) {
    asked(pairs::ask(block, image, a, b))
}

/// The same by a quick lookup. On an accepted image it answers as [`delay`].
pub fn quick_delay(block: &[u8], image: &[u8], a: u32, b: u32) -> (u32, i32) {
    asked(pairs::quick_ask(block, image, a, b))
}

/// Sets the delay of channels `a` and `b`, in that order.
pub fn set_delay(block: &[u8], image: &mut [u8], a: u32, b: u32, delay: i32) -> u32 {
    pairs::set(block, image, a, b, delay).err().unwrap_or(0)
}

/// XXH64 with seed 0.
pub fn xxh64(bytes: &[u8]) -> u64 {
    hash::xxh64(bytes)
}

fn asked(answer: Answer<i32>) -> (u32, i32) {
    match answer {
        Ok(delay) => (0, delay),
        Err(number) => (number, 0),
    }
}

fn numbers<const COUNT: usize>(answer: Answer<[u64; COUNT]>) -> (u32, [u64; COUNT]) {
    match answer {
        Ok(numbers) => (0, numbers),
        Err(number) => (number, [0; COUNT]),
    }
}
