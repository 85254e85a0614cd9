//! Random settings over all their ranges, with and without gaps.

use crate::plan::{MOST_TIERS, Plan};
use crate::rng::Rng;

/// How large an image may get.
#[derive(Clone, Copy, Debug, PartialEq)]
pub enum Size {
    /// Tiers for few entries, so that chains get long and tiers empty often.
    Narrow,
    Tiny,
    Small,
    Medium,
    Large,
    /// Few large chunks, so that the longest keys and values fit.
    Roomy,
    Huge,
}

impl Size {
    pub fn random(rng: &mut Rng) -> Size {
        match rng.below(2000) {
            0..900 => Size::Tiny,
            900..1700 => Size::Small,
            1700..1930 => Size::Medium,
            1930..1980 => Size::Roomy,
            1980..1998 => Size::Large,
            _ => Size::Huge,
        }
    }

    fn most_bytes(self) -> usize {
        match self {
            Size::Narrow | Size::Tiny => 4 << 10,
            Size::Small => 24 << 10,
            Size::Medium => 110 << 10,
            Size::Roomy => 500 << 10,
            Size::Large => 1 << 20,
            Size::Huge => 1 << 24,
        }
    }

    /// The most slots (a power of two), chunks and bytes in a chunk.
    fn limits(self) -> (u32, usize, usize) {
        match self {
            Size::Narrow => (3, 8, 12),
            Size::Tiny => (4, 24, 24),
            Size::Small => (6, 130, 64),
            Size::Medium => (10, 1000, 300),
            Size::Roomy => (4, 64, 4096),
            Size::Large | Size::Huge => (12, 4096, 4096),
        }
    }
}

impl Plan {
    pub fn random(rng: &mut Rng, size: Size) -> Plan {
        loop {
            let mut plan = Plan::default();
            plan.draw_tier(rng, size);
            plan.draw_bits(rng);
            plan.draw_frame(rng, size);
            let length = plan.store_size() + plan.bytes_after;
            let fields_fit = plan.fields().iter().all(|&field| field <= 1 << 24);
            if length <= size.most_bytes() && plan.tiers() <= MOST_TIERS && fields_fit {
                return plan;
            }
        }
    }

    fn draw_tier(&mut self, rng: &mut Rng, size: Size) {
        let (slot_power, most_chunks, most_chunk_size) = size.limits();
        self.slot_size = *rng.pick(&[4, 8]);
        self.slots = 1 << rng.between(2, slot_power as usize);
        self.chunks = match rng.below(10) {
            _ if size == Size::Roomy => rng.between(30, most_chunks),
            0 => rng.between(1, 4),
            1 => 8 * rng.between(1, most_chunks / 8),
            2 => (64 * rng.between(1, 4) + rng.below(3)).min(most_chunks),
            3 => most_chunks,
            _ => rng.between(1, most_chunks),
        };
        self.chunk_size = match rng.below(10) {
            _ if size == Size::Roomy => rng.between(1000, most_chunk_size),
            0 => rng.between(1, 3),
            1..8 => rng.between(4, 32.min(most_chunk_size)),
            _ => rng.between(1, most_chunk_size),
        };
        self.most_chunks = match rng.below(4) {
            0 => 64.min(self.chunks),
            _ => rng.between(1, 64.min(self.chunks)),
        };
        // Mostly at least the smallest entry fits.
        if self.most_chunks * self.chunk_size < 4 && rng.percent(95) {
            self.chunk_size = 4;
        }
        self.lookup_size = self.slots * self.slot_size + gap(rng, 80);
        self.list_size = self.chunks.div_ceil(8) + gap(rng, 20);
        self.space_offset = match rng.below(40) {
            0 => 4096,
            _ => gap(rng, 60),
        };
        let needed = self.chunk_end();
        self.tier_size = needed + gap(rng, 100);
    }

    fn chunk_end(&self) -> usize {
        self.lookup_size + 64 + self.list_size + self.space_offset + self.chunks * self.chunk_size
    }

    fn draw_bits(&mut self, rng: &mut Rng) {
        let width = 8 * self.slot_size;
        let least = (usize::BITS - (self.chunks - 1).leading_zeros()).max(1) as usize;
        self.chunk_bits = match rng.below(3) {
            0 => least,
            1 => rng.between(least, 32.min(width - 1)),
            _ => rng.between(least, (least + 6).min(32)),
        };
        let most = 56.min(width - self.chunk_bits);
        self.key_bits = match rng.below(8) {
            0 => 1,
            1 => rng.between(1, 4.min(most)),
            2 => rng.between(1, 12.min(most)),
            3 | 4 => most,
            _ => rng.between(1, most),
        };
    }

    fn draw_frame(&mut self, rng: &mut Rng, size: Size) {
        self.segments = match rng.below(20) {
            0..9 => 1,
            9..18 => 1 << rng.between(1, 3),
            _ => 1 << rng.between(0, 8),
        };
        self.header_size = if rng.percent(60) {
            32
        } else {
            rng.between(32, 256)
        };
        self.global_state = match rng.below(40) {
            0 => 65_536,
            1..8 => 64 * rng.below(20),
            _ => 64 * rng.below(3),
        };
        self.headers = self.global_state + 33 + gap(rng, 100);
        self.bulk_offset = match rng.below(60) {
            0 => 65_536,
            _ => gap(rng, 90),
        };
        self.bulk_tiers = if rng.percent(90) {
            rng.between(1, 5)
        } else {
            rng.between(1, 64)
        };
        self.bulk_size = self.bulk_offset + self.bulk_tiers * self.tier_size + gap(rng, 90);
        self.bulks = match rng.below(20) {
            0 => 0,
            1 => self.most_bulks(size.most_bytes()),
            _ => rng.between(1, 4),
        };
        self.bytes_after = self.draw_bytes_after(rng);
    }

    /// Few, or room for further bulks, to the byte, a byte less or some more.
    fn draw_bytes_after(&self, rng: &mut Rng) -> usize {
        let bulks = rng.between(1, 3) * self.bulk_size;
        match rng.below(10) {
            0..4 => gap(rng, 200),
            4..7 => bulks,
            7 => bulks - 1,
            _ => bulks + gap(rng, 200),
        }
    }

    /// Lowers field 17 to what an entry of `size` bytes takes, or to a chunk
    /// less, where that is still a setting.
    pub fn limit_entries(&mut self, size: usize, fits: bool) {
        let most = size.div_ceil(self.chunk_size) - usize::from(!fits);
        if (1..self.most_chunks).contains(&most) {
            self.most_chunks = most;
        }
    }

    fn most_bulks(&self, most_bytes: usize) -> usize {
        let by_count = (MOST_TIERS - self.segments) / self.bulk_tiers;
        let by_size = most_bytes.saturating_sub(self.bulks_start() + 300) / self.bulk_size;
        by_count.min(by_size)
    }
}

pub fn gap(rng: &mut Rng, most: usize) -> usize {
    if rng.percent(60) {
        0
    } else {
        rng.between(0, most)
    }
}
