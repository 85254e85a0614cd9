//! Where the parts of one tier stand, and its counters.
//!
//! A main tier keeps next, lowest free chunk and entry count in its segment
//! header; the same fields of its own counters are dead.

use crate::bytes::{put_uint, u32_at, u64_at};

#[derive(Clone, Copy, Debug)]
pub struct Tier {
    pub index: usize,
    pub slots: usize,
    pub counters: usize,
    pub list: usize,
    /// Start of chunk 0.
    pub space: usize,
    /// The segment header of a main tier.
    pub header: Option<usize>,
}

/// Places in the tier counters.
const NEXT: usize = 0;
const PREVIOUS: usize = 8;
const LOWEST_FREE: usize = 16;
const SEGMENT: usize = 24;
const ORDER: usize = 28;
const ENTRY_COUNT: usize = 32;

/// Places in a segment header.
const HEADER_ENTRY_COUNT: usize = 8;
const HEADER_LOWEST_FREE: usize = 12;
const HEADER_NEXT: usize = 16;

impl Tier {
    pub fn next(&self, image: &[u8]) -> u64 {
        u64_at(image, self.next_at())
    }

    pub fn set_next(&self, image: &mut [u8], index: u64) {
        put_uint(image, self.next_at(), 8, index);
    }

    fn next_at(&self) -> usize {
        match self.header {
            Some(header) => header + HEADER_NEXT,
            None => self.counters + NEXT,
        }
    }

    /// Whether previous, segment and order are these.
    pub fn stands_at(&self, image: &[u8], previous: usize, segment: usize, order: usize) -> bool {
        u64_at(image, self.counters + PREVIOUS) == previous as u64
            && u32_at(image, self.counters + SEGMENT) as usize == segment
            && u32_at(image, self.counters + ORDER) as usize == order
    }

    pub fn set_standing(&self, image: &mut [u8], previous: usize, segment: usize, order: usize) {
        put_uint(image, self.counters + PREVIOUS, 8, previous as u64);
        put_uint(image, self.counters + SEGMENT, 4, segment as u64);
        put_uint(image, self.counters + ORDER, 4, order as u64);
    }

    /// Zeros what the counters of an extra tier say, but for its next; the
    /// reserved bytes behind stay.
    pub fn clear_counters(&self, image: &mut [u8]) {
        self.set_standing(image, 0, 0, 0);
        self.set_lowest_free(image, 0);
        self.set_entry_count(image, 0);
    }

    pub fn entry_count(&self, image: &[u8]) -> u32 {
        u32_at(image, self.entry_count_at())
    }

    pub fn set_entry_count(&self, image: &mut [u8], count: u32) {
        put_uint(image, self.entry_count_at(), 4, u64::from(count));
    }

    fn entry_count_at(&self) -> usize {
        match self.header {
            Some(header) => header + HEADER_ENTRY_COUNT,
            None => self.counters + ENTRY_COUNT,
        }
    }

    pub fn lowest_free(&self, image: &[u8]) -> u64 {
        match self.header {
            Some(header) => u64::from(u32_at(image, header + HEADER_LOWEST_FREE)),
            None => u64_at(image, self.counters + LOWEST_FREE),
        }
    }

    /// The field is half as wide in a header as in the counters.
    pub fn set_lowest_free(&self, image: &mut [u8], chunk: usize) {
        match self.header {
            Some(header) => put_uint(image, header + HEADER_LOWEST_FREE, 4, chunk as u64),
            None => put_uint(image, self.counters + LOWEST_FREE, 8, chunk as u64),
        }
    }
}
