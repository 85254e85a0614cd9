//! Safe calls of a proved library over a lent Chronicle Map memory image: the memory is the caller's.
//!
//! Each call is given a settings block (71 bytes, which say how the image is laid out) and the image, and checks both
//! itself before it does anything else. Any bytes may be given: where they are wrong the call answers a [`Refusal`].
//! A call that refuses leaves the image as it was.
//!
//! The quick calls ([`quick_lookup`], [`quick_record`], [`quick_delay`]) are the exception: they check the block and the
//! image's frame, and then read only what the search for their key meets, so that it does not matter how large the rest of
//! the image is. They answer as the other calls do on an image that [`check`] accepted and that only this library's calls wrote
//! to since. So check a copy once, when it arrives, and then use the quick calls.
//!
//! Two accepted images under one block with the same keys and records, wherever these stand in them, answer the same
//! lookups, stores, removals, delay lookups and sets alike, but for places, until one of the two answers [`Refusal::Full`].
//!
//! ```no_run
//! # fn calls(block: &[u8], image: &mut [u8]) -> Result<(), chronicle_map::Refusal> {
//! chronicle_map::store(block, image, &[1, 2], &16i32.to_le_bytes())?;
//! if let Some(record) = chronicle_map::record(block, image, &[1, 2])? {
//!     println!("{record:?}");
//! }
//! chronicle_map::set_delay(block, image, 4, 3, -25)?;
//! assert_eq!(chronicle_map::delay(block, image, 3, 4)?, Some(25));
//! assert_eq!(chronicle_map::quick_delay(block, image, 3, 4)?, Some(25));
//! # Ok(())
//! # }
//! ```
#![deny(unsafe_code)]
#![warn(missing_docs)]

use std::error::Error;
use std::fmt;
use std::ops::Range;

#[allow(unsafe_code)]
pub mod ffi;

/// Why a call refuses: the first that applies, in the order 2 to 8, 11, 12, 9, 10, 13; for the quick calls 2, 3, 4, 8, 11,
/// 18, 12.
#[derive(Clone, Copy, Debug, PartialEq, Eq, Hash)]
pub enum Refusal {
    /// 2: the block's length, its length field or its version is wrong.
    Block = 2,
    /// 3: a field of the block breaks its rule.
    Field = 3,
    /// 4: the image's length, its offsets or its store size is wrong.
    Frame = 4,
    /// 5: the chains of tiers are broken.
    Chains = 5,
    /// 6: a slot or an entry is broken.
    Entries = 6,
    /// 7: the marks of chunks or the counters do not fit the entries.
    Chunks = 7,
    /// 8: the key is empty or longer than 1,024 bytes.
    Key = 8,
    /// 9: the record is longer than 65,535 bytes, or takes more chunks than an entry may.
    Value = 9,
    /// 10: no tier has room for the entry, and none is free.
    Full = 10,
    /// 11: a channel is not one of 1 to 32, or the two are equal.
    Pair = 11,
    /// 12: the delay, given or stored, is `i32::MIN`, or the stored record is not 4 bytes.
    Delay = 12,
    /// 13: the image is too short for one more bulk, or the tiers would pass 1,024.
    NoBulk = 13,
    /// 18: the walk of a quick call met a broken next, slot or entry, a chain longer than the tiers, or a tier without an
    /// empty slot.
    Walk = 18,
}

impl Refusal {
    /// The number of the C interface: 2 to 13 or 18.
    pub fn number(self) -> u32 {
        self as u32
    }

    fn of(number: u32) -> Refusal {
        match number {
            2 => Refusal::Block,
            3 => Refusal::Field,
            4 => Refusal::Frame,
            5 => Refusal::Chains,
            6 => Refusal::Entries,
            7 => Refusal::Chunks,
            8 => Refusal::Key,
            9 => Refusal::Value,
            10 => Refusal::Full,
            11 => Refusal::Pair,
            12 => Refusal::Delay,
            13 => Refusal::NoBulk,
            18 => Refusal::Walk,
            other => unreachable!("the library's contracts allow no answer {other} here"),
        }
    }
}

impl fmt::Display for Refusal {
    fn fmt(&self, f: &mut fmt::Formatter<'_>) -> fmt::Result {
        let reason = match self {
            Refusal::Block => "the block's length, length field or version is wrong",
            Refusal::Field => "a field of the block breaks its rule",
            Refusal::Frame => "the image's length, offsets or store size is wrong",
            Refusal::Chains => "the chains of tiers are broken",
            Refusal::Entries => "a slot or an entry is broken",
            Refusal::Chunks => "the marks of chunks or the counters do not fit the entries",
            Refusal::Key => "the key is empty or longer than 1,024 bytes",
            Refusal::Value => "the record is too long",
            Refusal::Full => "no tier has room for the entry",
            Refusal::Pair => "a channel is not one of 1 to 32, or the two are equal",
            Refusal::Delay => "the delay is the most negative number, or not 4 bytes",
            Refusal::NoBulk => "there is no room for one more bulk",
            Refusal::Walk => "the search for the key met a broken next, slot or entry",
        };
        write!(f, "refused {}: {reason}", self.number())
    }
}

impl Error for Refusal {}

/// What the check counts over an accepted image.
#[derive(Clone, Copy, Debug, PartialEq, Eq, Hash)]
pub struct Counts {
    /// Live entries.
    pub entries: u64,
    /// Marked chunks.
    pub chunks: u64,
    /// Tiers in the segments' chains.
    pub tiers: u64,
    /// Tiers in the free chain.
    pub free: u64,
}

/// What a lookup finds. Tiers are counted from 1, slots from 0.
#[derive(Clone, Copy, Debug, PartialEq, Eq, Hash)]
pub enum Located {
    /// The record under the whole key.
    Found {
        /// Where in the image it starts.
        offset: usize,
        /// Its length in bytes.
        length: usize,
        /// The tier of its entry.
        tier: u64,
        /// The slot of its entry in that tier.
        slot: u64,
    },
    /// No record: where the search ended. A store of the key may go to another tier or slot.
    Absent {
        /// The last tier searched. In an image that [`check`] accepts it is the last of the chain of the key's segment.
        tier: u64,
        /// The first empty slot in that tier from the key's start slot on, wrapping.
        slot: u64,
    },
}

impl Located {
    /// The bytes of the image that the record has, within the image and perhaps none; `None` where there is no record.
    pub fn range(self) -> Option<Range<usize>> {
        match self {
            Located::Found { offset, length, .. } => Some(offset..offset + length),
            Located::Absent { .. } => None,
        }
    }
}

/// Where a live entry stands, and its lengths.
#[derive(Clone, Copy, Debug, PartialEq, Eq, Hash)]
pub struct Row {
    /// The segment, from 0.
    pub segment: u64,
    /// The tier, from 1.
    pub tier: u64,
    /// The slot, from 0.
    pub slot: u64,
    /// The first chunk, from 0.
    pub chunk: u64,
    /// How many chunks the entry takes.
    pub chunks: u64,
    /// The length of the key in bytes.
    pub key_length: u64,
    /// The length of the record in bytes.
    pub value_length: u64,
}

/// Checks the block and the whole image. Refusals: `Block` to `Chunks`.
pub fn check(block: &[u8], image: &[u8]) -> Result<Counts, Refusal> {
    let mut counts = [0; 4];
    match ffi::check(block, image, &mut counts) {
        0 => {
            let [entries, chunks, tiers, free] = counts;
            Ok(Counts {
                entries,
                chunks,
                tiers,
                free,
            })
        }
        number => Err(Refusal::of(number)),
    }
}

/// Where the record of a key stands; where the key is absent, where the search for it ended. Refusals: `Block` to `Key`.
///
/// Keys are compared whole.
pub fn lookup(block: &[u8], image: &[u8], key: &[u8]) -> Result<Located, Refusal> {
    located(|place| ffi::lookup(block, image, key, place))
}

/// The quick lookup: it checks the block, the frame and the key, and then walks the chain of the key's segment only.
/// Refusals: `Block`, `Field`, `Frame`, `Key`, `Walk`.
///
/// On an image that [`check`] accepts it answers exactly what [`lookup`] answers. On any other it is safe too, and a found
/// record lies within the image, but damage that the walk does not meet is not noticed.
pub fn quick_lookup(block: &[u8], image: &[u8], key: &[u8]) -> Result<Located, Refusal> {
    located(|place| ffi::quick_lookup(block, image, key, place))
}

// What a lookup of either kind answers; it fills the place that it is given.
fn located(lookup: impl FnOnce(&mut [u64; 4]) -> u32) -> Result<Located, Refusal> {
    let mut place = [0; 4];
    let number = lookup(&mut place);
    let [offset, length, tier, slot] = place;
    match number {
        0 => Ok(Located::Found {
            offset: offset as usize,
            length: length as usize,
            tier,
            slot,
        }),
        1 => Ok(Located::Absent { tier, slot }),
        number => Err(Refusal::of(number)),
    }
}

/// The record of a key, as a part of the image; `None` where the key is absent. Refusals: `Block` to `Key`.
pub fn record<'a>(block: &[u8], image: &'a [u8], key: &[u8]) -> Result<Option<&'a [u8]>, Refusal> {
    Ok(part(image, lookup(block, image, key)?))
}

/// The record of a key by [`quick_lookup`], as a part of the image; `None` where the key is absent. Refusals: `Block`,
/// `Field`, `Frame`, `Key`, `Walk`.
pub fn quick_record<'a>(
    block: &[u8],
    image: &'a [u8],
    key: &[u8],
) -> Result<Option<&'a [u8]>, Refusal> {
    Ok(part(image, quick_lookup(block, image, key)?))
}

// The bytes of a record that was found in this image.
fn part(image: &[u8], located: Located) -> Option<&[u8]> {
    located.range().map(|part| &image[part])
}

/// Stores a record under a key, or replaces the one that is there. Every other key keeps its record.
/// Refusals: `Block` to `Full`.
///
/// A replacement that takes as many chunks as the old entry stays on the spot, that is, in place: it keeps its tier, slot and
/// chunks, only the entry's own bytes are written, and what `lookup` answered for any other key is still right. The offset of
/// its own record moves only where the record's length takes a byte more or fewer than before (127 and 128, 16,383 and
/// 16,384). Any other replacement goes where `store_tight` puts it.
pub fn store(block: &[u8], image: &mut [u8], key: &[u8], value: &[u8]) -> Result<(), Refusal> {
    done(ffi::store(block, image, key, value))
}

/// The tight store: what it replaces is always removed first, in effect, and the new entry goes to the lowest run of chunks
/// in the first tier that takes it. A new key is stored alike by both. Refusals: `Block` to `Full`.
///
/// Neither is refused with `Full` where it replaces an entry of as many chunks, or of more. Where the old entry was the only one of
/// an extra tier and an earlier tier takes the new one, the old tier becomes free as after `remove`.
pub fn store_tight(
    block: &[u8],
    image: &mut [u8],
    key: &[u8],
    value: &[u8],
) -> Result<(), Refusal> {
    done(ffi::store_tight(block, image, key, value))
}

// The number of a store, a set or a grow.
fn done(number: u32) -> Result<(), Refusal> {
    match number {
        0 => Ok(()),
        number => Err(Refusal::of(number)),
    }
}

/// Removes a key with its record, and says whether it was there. Every other key keeps its record. Refusals: `Block` to `Key`.
///
/// Where this was the last entry of an extra tier, the tier leaves its segment's chain and becomes the first free one.
pub fn remove(block: &[u8], image: &mut [u8], key: &[u8]) -> Result<bool, Refusal> {
    match ffi::remove(block, image, key) {
        0 => Ok(true),
        1 => Ok(false),
        number => Err(Refusal::of(number)),
    }
}

/// Adds one bulk after the last, for when a store is refused with `Full`. Its tiers stand in the free chain in front of those
/// that are free already, so the next store is not refused with `Full`. Every key keeps its record, and what `lookup` or
/// `entry` answered before is still right. Refusals: `Block` to `Chunks`, `NoBulk`.
///
/// The bulk must fit in the image behind the store. It takes as many bytes as field 16 of the block says
/// (`u32::from_be_bytes` of `block[63..67]`), so an image with that many bytes more than before is long enough, whatever
/// they hold; no image has more than 16,777,216 bytes.
pub fn grow(block: &[u8], image: &mut [u8]) -> Result<(), Refusal> {
    done(ffi::grow(block, image))
}

/// The n-th live entry, n from 0, by segment, order of its tiers, slot; `None` past the last. Refusals: `Block` to `Chunks`.
///
/// Each call checks the whole image anew.
pub fn entry(block: &[u8], image: &[u8], n: u64) -> Result<Option<Row>, Refusal> {
    let mut row = [0; 7];
    match ffi::entry(block, image, n, &mut row) {
        0 => {
            let [segment, tier, slot, chunk, chunks, key_length, value_length] = row;
            Ok(Some(Row {
                segment,
                tier,
                slot,
                chunk,
                chunks,
                key_length,
                value_length,
            }))
        }
        1 => Ok(None),
        number => Err(Refusal::of(number)),
    }
}

/// The delay lookup: the delay of channels a and b, in that order, in microseconds; `None` where nothing is stored under the
/// pair's key. Refusals: `Block` to `Chunks`, `Pair`, `Delay`.
///
/// A pair is kept once, under the key of two bytes with the smaller channel first; its record is the delay in that order,
/// as `i32::to_le_bytes` gives it. The other order has the opposite delay: both, found with no edit between the two, sum
/// to 0.
pub fn delay(block: &[u8], image: &[u8], a: u32, b: u32) -> Result<Option<i32>, Refusal> {
    asked(|delay| ffi::delay(block, image, a, b, delay))
}

/// The quick delay lookup: [`delay`] by [`quick_lookup`]. `None` where the walk finds nothing under the pair's key.
/// Refusals: `Block`, `Field`, `Frame`, `Pair`, `Walk`, `Delay`.
///
/// On an image that [`check`] accepts it answers exactly what [`delay`] answers.
pub fn quick_delay(block: &[u8], image: &[u8], a: u32, b: u32) -> Result<Option<i32>, Refusal> {
    asked(|delay| ffi::quick_delay(block, image, a, b, delay))
}

// What a delay lookup of either kind answers; it fills the delay that it is given.
fn asked(ask: impl FnOnce(&mut i32) -> u32) -> Result<Option<i32>, Refusal> {
    let mut delay = 0;
    match ask(&mut delay) {
        0 => Ok(Some(delay)),
        1 => Ok(None),
        number => Err(Refusal::of(number)),
    }
}

/// Sets the delay of channels a and b, in that order, and so of both orders. Every other key keeps its record.
/// Refusals: `Block` to `Chunks`, `Pair`, `Delay`, `Value`, `Full`.
///
/// `i32::MIN` has no opposite and is refused. What is stored under the pair's key, a delay or not, is replaced.
pub fn set_delay(
    block: &[u8],
    image: &mut [u8],
    a: u32,
    b: u32,
    delay: i32,
) -> Result<(), Refusal> {
    done(ffi::set_delay(block, image, a, b, delay))
}

/// The XXH64 hash of some bytes, with seed 0: the hash by which keys are placed.
pub fn xxh64(bytes: &[u8]) -> u64 {
    ffi::xxh64(bytes)
}

#[cfg(test)]
mod tests;
