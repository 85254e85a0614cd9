//! The frame of an image (number 4): where headers, tiers and bulks stand.

use crate::bytes::{put_uint, u32_at, u64_at, uint_at};
use crate::settings::{COUNTERS_SIZE, Settings};
use crate::tier::Tier;
use crate::{Answer, number};

const STATE_SIZE: usize = 33;
const MOST_IMAGE_BYTES: usize = 1 << 24;
const MOST_TIERS: u64 = 1024;

/// Places in the global state.
const BULKS: (usize, usize) = (8, 3);
const FIRST_FREE: (usize, usize) = (11, 5);
const USED: (usize, usize) = (16, 5);
const HEADERS: usize = 21;
const STORE_SIZE: usize = 25;

#[derive(Clone, Copy, Debug)]
pub struct Frame {
    pub settings: Settings,
    headers: usize,
    main_tiers: usize,
    bulks: usize,
    bulk_count: usize,
    /// Tiers in all; indexes count from 1 to this.
    pub tiers: usize,
}

impl Frame {
    #[inline(always)]
    pub fn read(settings: Settings, image: &[u8]) -> Answer<Frame> {
        let state = settings.global_state;
        if image.len() < state + STATE_SIZE || image.len() > MOST_IMAGE_BYTES {
            return Err(number::FRAME);
        }
        let bulk_count = uint_at(image, state + BULKS.0, BULKS.1);
        let headers = u64::from(u32_at(image, state + HEADERS));
        let store_size = u64_at(image, state + STORE_SIZE);
        let segments = settings.segments as u64;
        let main_tiers = headers + segments * settings.header_size as u64;
        let bulks = main_tiers + segments * settings.tier_size as u64;
        let tiers = segments + bulk_count * settings.bulk_tiers as u64;
        let holds = headers >= (state + STATE_SIZE) as u64
            && tiers <= MOST_TIERS
            && store_size == bulks + bulk_count * settings.bulk_size as u64
            && store_size <= image.len() as u64;
        if !holds {
            return Err(number::FRAME);
        }
        Ok(Frame {
            settings,
            headers: headers as usize,
            main_tiers: main_tiers as usize,
            bulks: bulks as usize,
            bulk_count: bulk_count as usize,
            tiers: tiers as usize,
        })
    }

    /// The frame with one bulk more, if so many tiers are allowed and the
    /// image is long enough. The whole bulk must fit, with what comes before
    /// and after its tiers, since the store ends with it.
    pub fn with_one_more_bulk(&self, image: &[u8]) -> Option<Frame> {
        let grown = Frame {
            bulk_count: self.bulk_count + 1,
            tiers: self.tiers + self.settings.bulk_tiers,
            ..*self
        };
        let fits = grown.store_size() <= image.len() && grown.tiers as u64 <= MOST_TIERS;
        fits.then_some(grown)
    }

    /// The end of the last bulk, or of the main tiers if there is none.
    fn store_size(&self) -> usize {
        self.bulks + self.bulk_count * self.settings.bulk_size
    }

    /// The tier of an index from 1 to `tiers`.
    pub fn tier(&self, index: usize) -> Tier {
        let settings = &self.settings;
        let place = index - 1;
        let (start, header) = match place.checked_sub(settings.segments) {
            None => (
                self.main_tiers + place * settings.tier_size,
                Some(self.headers + place * settings.header_size),
            ),
            Some(extra) => (self.extra_tier_start(extra), None),
        };
        let counters = start + settings.lookup_size;
        let list = counters + COUNTERS_SIZE;
        let space = list + settings.list_size + settings.space_offset;
        Tier {
            index,
            slots: start,
            counters,
            list,
            space,
            header,
        }
    }

    fn extra_tier_start(&self, extra: usize) -> usize {
        let settings = &self.settings;
        let bulk = self.bulks + extra / settings.bulk_tiers * settings.bulk_size;
        bulk + settings.bulk_offset + extra % settings.bulk_tiers * settings.tier_size
    }

    /// Whether `index` names a tier of a bulk.
    pub fn is_extra(&self, index: u64) -> bool {
        index > self.settings.segments as u64 && index <= self.tiers as u64
    }

    pub fn first_free(&self, image: &[u8]) -> u64 {
        uint_at(
            image,
            self.settings.global_state + FIRST_FREE.0,
            FIRST_FREE.1,
        )
    }

    pub fn set_first_free(&self, image: &mut [u8], index: u64) {
        put_uint(
            image,
            self.settings.global_state + FIRST_FREE.0,
            FIRST_FREE.1,
            index,
        );
    }

    pub fn used(&self, image: &[u8]) -> u64 {
        uint_at(image, self.settings.global_state + USED.0, USED.1)
    }

    pub fn set_used(&self, image: &mut [u8], count: u64) {
        put_uint(image, self.settings.global_state + USED.0, USED.1, count);
    }

    /// Writes the bulk count and the store size, which follow one from the
    /// other.
    pub fn set_bulks(&self, image: &mut [u8]) {
        let state = self.settings.global_state;
        put_uint(image, state + BULKS.0, BULKS.1, self.bulk_count as u64);
        put_uint(image, state + STORE_SIZE, 8, self.store_size() as u64);
    }
}
