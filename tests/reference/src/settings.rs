//! The settings block: its shape (number 2) and its 17 fields (number 3).

use crate::{Answer, number};

const BLOCK_LENGTH: usize = 71;
const FIELDS: usize = 17;
const MOST_OF_ANY_FIELD: u32 = 1 << 24;
pub const COUNTERS_SIZE: usize = 64;

#[derive(Clone, Copy, Debug)]
pub struct Settings {
    pub global_state: usize,
    pub segments: usize,
    pub header_size: usize,
    pub slot_size: usize,
    pub slots: usize,
    pub key_bits: usize,
    pub chunk_bits: usize,
    pub lookup_size: usize,
    pub list_size: usize,
    pub space_offset: usize,
    pub chunks: usize,
    pub chunk_size: usize,
    /// 2^32 divided by the chunk size, rounded up.
    pub chunk_reciprocal: u64,
    pub tier_size: usize,
    pub bulk_offset: usize,
    pub bulk_tiers: usize,
    pub bulk_size: usize,
    pub most_chunks: usize,
}

impl Settings {
    /// Inlined, as the frame's reading is: a quick call does both each time, and
    /// copies of what is read would take a good part of it.
    #[inline(always)]
    pub fn read(block: &[u8]) -> Answer<Settings> {
        let fields = fields_of(block).ok_or(number::BLOCK)?;
        let settings = Settings::from_fields(&fields);
        // The ranges come first: within them no sum or product overflows.
        let holds = fields.iter().all(|&field| field <= MOST_OF_ANY_FIELD)
            && settings.ranges_hold()
            && settings.sizes_hold();
        if holds {
            Ok(settings)
        } else {
            Err(number::FIELD)
        }
    }

    fn from_fields(fields: &[u32; FIELDS]) -> Settings {
        let field = |place: usize| fields[place - 1] as usize;
        Settings {
            global_state: field(1),
            segments: field(2),
            header_size: field(3),
            slot_size: field(4),
            slots: field(5),
            key_bits: field(6),
            chunk_bits: field(7),
            lookup_size: field(8),
            list_size: field(9),
            space_offset: field(10),
            chunks: field(11),
            chunk_size: field(12),
            chunk_reciprocal: (1u64 << 32).div_ceil(field(12).max(1) as u64),
            tier_size: field(13),
            bulk_offset: field(14),
            bulk_tiers: field(15),
            bulk_size: field(16),
            most_chunks: field(17),
        }
    }

    /// The rules that set a field between two numbers.
    fn ranges_hold(&self) -> bool {
        self.global_state.is_multiple_of(64)
            && self.global_state <= 65_536
            && self.segments.is_power_of_two()
            && self.segments <= 256
            && (32..=256).contains(&self.header_size)
            && (self.slot_size == 4 || self.slot_size == 8)
            && self.slots.is_power_of_two()
            && (4..=4096).contains(&self.slots)
            && (1..=56).contains(&self.key_bits)
            && (1..=32).contains(&self.chunk_bits)
            && self.space_offset <= 4096
            && (1..=4096).contains(&self.chunks)
            && (1..=4096).contains(&self.chunk_size)
            && self.bulk_offset <= 65_536
            && (1..=64).contains(&self.bulk_tiers)
            && (1..=64).contains(&self.most_chunks)
    }

    /// The rules that set a field against others.
    fn sizes_hold(&self) -> bool {
        let space = self.space_offset + self.chunks * self.chunk_size;
        self.key_bits + self.chunk_bits <= 8 * self.slot_size
            && 1u64 << self.chunk_bits >= self.chunks as u64
            && self.lookup_size >= self.slots * self.slot_size
            && self.list_size >= self.chunks.div_ceil(8)
            && self.tier_size >= self.lookup_size + COUNTERS_SIZE + self.list_size + space
            && self.bulk_size >= self.bulk_offset + self.bulk_tiers * self.tier_size
            && self.most_chunks <= self.chunks
    }
}

fn fields_of(block: &[u8]) -> Option<[u32; FIELDS]> {
    if block.len() != BLOCK_LENGTH || block[..3] != [0, 69, 1] {
        return None;
    }
    let mut fields = [0; FIELDS];
    for (field, bytes) in fields.iter_mut().zip(block[3..].as_chunks::<4>().0) {
        *field = u32::from_be_bytes(*bytes);
    }
    Some(fields)
}
