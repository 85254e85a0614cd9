//! Settings, and where they put things in an image. Written apart from the
//! reference, so that an error in its addresses shows too.

use crate::render::get;

/// The most tiers of an image.
pub const MOST_TIERS: usize = 1024;
/// The most bytes of an image.
pub const MOST_BYTES: usize = 1 << 24;

#[derive(Clone, Debug, Default)]
pub struct Plan {
    pub global_state: usize,
    pub segments: usize,
    pub header_size: usize,
    pub slot_size: usize,
    pub slots: usize,
    pub key_bits: usize,
    pub chunk_bits: usize,
    pub lookup_size: usize,
    pub list_size: usize,
    pub space_offset: usize,
    pub chunks: usize,
    pub chunk_size: usize,
    pub tier_size: usize,
    pub bulk_offset: usize,
    pub bulk_tiers: usize,
    pub bulk_size: usize,
    pub most_chunks: usize,
    /// From here on not settings, but numbers of the image.
    pub bulks: usize,
    pub headers: usize,
    pub bytes_after: usize,
}

pub fn length_size(number: usize) -> usize {
    match number {
        0..0x80 => 1,
        0x80..0x4000 => 2,
        _ => 3,
    }
}

impl Plan {
    pub fn fields(&self) -> [usize; 17] {
        [
            self.global_state,
            self.segments,
            self.header_size,
            self.slot_size,
            self.slots,
            self.key_bits,
            self.chunk_bits,
            self.lookup_size,
            self.list_size,
            self.space_offset,
            self.chunks,
            self.chunk_size,
            self.tier_size,
            self.bulk_offset,
            self.bulk_tiers,
            self.bulk_size,
            self.most_chunks,
        ]
    }

    pub fn block(&self) -> Vec<u8> {
        block_of(&self.fields())
    }

    pub fn tiers(&self) -> usize {
        self.segments + self.bulks * self.bulk_tiers
    }

    pub fn store_size(&self) -> usize {
        self.bulks_start() + self.bulks * self.bulk_size
    }

    pub fn bulks_start(&self) -> usize {
        self.headers + self.segments * (self.header_size + self.tier_size)
    }

    /// The frame of an image is the plan's.
    pub fn frames(&self, image: &[u8]) -> bool {
        let fields = [
            (8, 3, self.bulks),
            (21, 4, self.headers),
            (25, 8, self.store_size()),
        ];
        let mut fields = fields.into_iter();
        (self.store_size()..=MOST_BYTES).contains(&image.len())
            && self.tiers() <= MOST_TIERS
            && fields.all(|(at, width, number)| {
                get(image, self.global_state + at, width) == number as u64
            })
    }

    /// The bytes that an image of some length lacks for one bulk more, and
    /// the tiers that would be too many.
    pub fn lacks(&self, length: usize) -> (usize, usize) {
        let end = self.store_size() + self.bulk_size;
        let tiers = self.tiers() + self.bulk_tiers;
        (end.saturating_sub(length), tiers.saturating_sub(MOST_TIERS))
    }

    /// For an image that lacks nothing: the bulk is taken from the bytes after.
    pub fn with_one_more_bulk(&self) -> Plan {
        Plan {
            bulks: self.bulks + 1,
            bytes_after: self.bytes_after - self.bulk_size,
            ..self.clone()
        }
    }

    pub fn is_main(&self, tier: usize) -> bool {
        tier <= self.segments
    }

    pub fn header(&self, segment: usize) -> usize {
        self.headers + segment * self.header_size
    }

    pub fn tier(&self, tier: usize) -> usize {
        if self.is_main(tier) {
            return self.headers + self.segments * self.header_size + (tier - 1) * self.tier_size;
        }
        let extra = tier - self.segments - 1;
        let (bulk, place) = (extra / self.bulk_tiers, extra % self.bulk_tiers);
        self.bulks_start() + bulk * self.bulk_size + self.bulk_offset + place * self.tier_size
    }

    pub fn slot(&self, tier: usize, slot: usize) -> usize {
        self.tier(tier) + slot * self.slot_size
    }

    pub fn counters(&self, tier: usize) -> usize {
        self.tier(tier) + self.lookup_size
    }

    pub fn list(&self, tier: usize) -> usize {
        self.counters(tier) + 64
    }

    pub fn chunk(&self, tier: usize, chunk: usize) -> usize {
        self.list(tier) + self.list_size + self.space_offset + chunk * self.chunk_size
    }

    /// Offset and width of the live field.
    pub fn next_field(&self, tier: usize) -> (usize, usize) {
        match self.is_main(tier) {
            true => (self.header(tier - 1) + 16, 8),
            false => (self.counters(tier), 8),
        }
    }

    pub fn lowest_free_field(&self, tier: usize) -> (usize, usize) {
        match self.is_main(tier) {
            true => (self.header(tier - 1) + 12, 4),
            false => (self.counters(tier) + 16, 8),
        }
    }

    pub fn entry_count_field(&self, tier: usize) -> (usize, usize) {
        match self.is_main(tier) {
            true => (self.header(tier - 1) + 8, 4),
            false => (self.counters(tier) + 32, 4),
        }
    }

    /// Segment and lookup key of a key.
    pub fn parts(&self, key: &[u8]) -> (usize, u64) {
        let hash = reference::xxh64(key);
        let above = hash >> self.segments.ilog2();
        let part = above & self.all_ones();
        let lookup_key = if part == 0 { self.all_ones() } else { part };
        (hash as usize % self.segments, lookup_key)
    }

    pub fn all_ones(&self) -> u64 {
        (1u64 << self.key_bits) - 1
    }

    pub fn start(&self, lookup_key: u64) -> usize {
        (lookup_key % self.slots as u64) as usize
    }

    pub fn chunks_of(&self, key: usize, value: usize) -> usize {
        let size = length_size(key) + key + length_size(value) + value;
        size.div_ceil(self.chunk_size)
    }

    /// The longest value that keeps an entry within `chunks`.
    pub fn longest_value(&self, key: usize, chunks: usize) -> Option<usize> {
        let room = (chunks * self.chunk_size).checked_sub(length_size(key) + key + 1)?;
        let mut value = room.min(70_000);
        while length_size(value) + value > room + 1 {
            value -= 1;
        }
        Some(value)
    }

    /// The number that a store of such a key and value gets from the
    /// settings alone.
    pub fn offered_number(&self, key: usize, value: Option<usize>) -> u32 {
        if key == 0 || key > 1024 {
            return 8;
        }
        match value {
            Some(value) if value > 65_535 || self.chunks_of(key, value) > self.most_chunks => 9,
            _ => 0,
        }
    }
}

pub fn block_of(fields: &[usize; 17]) -> Vec<u8> {
    let mut block = vec![0, 69, 1];
    for field in fields {
        block.extend((*field as u32).to_be_bytes());
    }
    block
}
