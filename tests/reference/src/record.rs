//! Entries in the chunks: key length, key, value length, value.

use crate::leb128;
use crate::settings::Settings;
use crate::tier::Tier;
use crate::{Answer, number};

pub const MOST_KEY_BYTES: usize = 1024;
const MOST_VALUE_BYTES: usize = 65_535;

/// An entry with lengths in form and range that ends within the chunks of its
/// tier.
#[derive(Clone, Copy, Debug)]
pub struct Stored<'a> {
    pub key: &'a [u8],
    pub value: &'a [u8],
    /// Offset of the value in the image.
    pub value_at: usize,
}

/// An entry that meets every rule about itself.
#[derive(Clone, Copy, Debug)]
pub struct Entry<'a> {
    pub first_chunk: usize,
    pub chunks: usize,
    pub key: &'a [u8],
    /// Offset of the value in the image.
    pub value_at: usize,
    pub value_length: usize,
}

impl Settings {
    /// The entry at a chunk index taken from a slot. An index over V bits is
    /// not below N either.
    pub fn entry_at<'a>(
        &self,
        image: &'a [u8],
        tier: &Tier,
        first_chunk: u64,
    ) -> Option<Entry<'a>> {
        let stored = self.stored_at(image, tier, first_chunk)?;
        let first_chunk = first_chunk as usize;
        let start = tier.space + first_chunk * self.chunk_size;
        let value_length = stored.value.len();
        let chunks = self.chunks_for(stored.value_at + value_length - start);
        (chunks <= self.most_chunks).then_some(Entry {
            first_chunk,
            chunks,
            key: stored.key,
            value_at: stored.value_at,
            value_length,
        })
    }

    /// The entry at a chunk index, however many chunks it takes. Bytes are
    /// looked at only inside the tier's chunks: an entry that leaves them is
    /// refused whatever stands beyond.
    pub fn stored_at<'a>(&self, image: &'a [u8], tier: &Tier, chunk: u64) -> Option<Stored<'a>> {
        if chunk >= self.chunks as u64 {
            return None;
        }
        let chunk = chunk as usize;
        let bytes = self.bytes_from(image, tier, chunk);
        let (key_length, key_start) = leb128::read(bytes)?;
        let key_end = key_start + key_length;
        let key = bytes.get(key_start..key_end)?;
        let (value_length, length_size) = leb128::read(&bytes[key_end..])?;
        if !(1..=MOST_KEY_BYTES).contains(&key_length) || value_length > MOST_VALUE_BYTES {
            return None;
        }
        let value_start = key_end + length_size;
        Some(Stored {
            key,
            value: bytes.get(value_start..value_start + value_length)?,
            value_at: tier.space + chunk * self.chunk_size + value_start,
        })
    }

    /// The size divided by the chunk size, rounded up, as a product: exact
    /// for a size within the limits of key and value.
    fn chunks_for(&self, size: usize) -> usize {
        let rounded_up = (size + self.chunk_size - 1) as u64;
        ((rounded_up * self.chunk_reciprocal) >> 32) as usize
    }

    /// Whether the entry at a chunk has this key.
    pub fn has_key(&self, image: &[u8], tier: &Tier, first_chunk: u64, key: &[u8]) -> bool {
        self.key_at(image, tier, first_chunk) == Some(key)
    }

    /// The key of the entry at a chunk below N, if its length is in form and
    /// it ends within the chunks of its tier.
    pub fn key_at<'a>(&self, image: &'a [u8], tier: &Tier, first_chunk: u64) -> Option<&'a [u8]> {
        let bytes = self.bytes_from(image, tier, first_chunk as usize);
        let (length, size) = leb128::read(bytes)?;
        bytes.get(size..size + length)
    }

    /// From the start of a chunk to the end of the tier's chunks.
    fn bytes_from<'a>(&self, image: &'a [u8], tier: &Tier, chunk: usize) -> &'a [u8] {
        let end = tier.space + self.chunks * self.chunk_size;
        &image[tier.space + chunk * self.chunk_size..end]
    }

    /// The chunks that an entry of this value and a good key needs.
    pub fn chunks_needed(&self, key: &[u8], value: &[u8]) -> Answer<usize> {
        if value.len() > MOST_VALUE_BYTES {
            return Err(number::VALUE);
        }
        let size = leb128::size(key.len()) + key.len() + leb128::size(value.len()) + value.len();
        match self.chunks_for(size) {
            chunks if chunks > self.most_chunks => Err(number::VALUE),
            chunks => Ok(chunks),
        }
    }
}

/// Writes the entry to the front of `bytes` and nothing after it.
pub fn write_entry(bytes: &mut [u8], key: &[u8], value: &[u8]) {
    let mut at = 0;
    for part in [key, value] {
        at += leb128::write(&mut bytes[at..], part.len());
        bytes[at..at + part.len()].copy_from_slice(part);
        at += part.len();
    }
}

pub fn check_key(key: &[u8]) -> Answer<()> {
    if key.is_empty() || key.len() > MOST_KEY_BYTES {
        return Err(number::KEY);
    }
    Ok(())
}
