//! Signed delays by pair of channels. A pair is kept once, under its two
//! channels with the smaller one first; the other order has the opposite
//! delay.

use std::ops::RangeInclusive;

use crate::check::accept;
use crate::edit::Kind;
use crate::frame::Frame;
use crate::quick::{self, End};
use crate::settings::Settings;
use crate::{Answer, edit, number, search};

const CHANNELS: RangeInclusive<u32> = 1..=32;
/// It has no opposite, so it is no delay in either order.
const NO_DELAY: i32 = i32::MIN;

struct Pair {
    key: [u8; 2],
    /// Given with the larger channel first.
    turned: bool,
}

impl Pair {
    fn of(a: u32, b: u32) -> Answer<Pair> {
        let known = CHANNELS.contains(&a) && CHANNELS.contains(&b);
        if !known || a == b {
            return Err(number::PAIR);
        }
        Ok(Pair {
            key: [a.min(b) as u8, a.max(b) as u8],
            turned: a > b,
        })
    }

    /// From the order given to the order kept, and back.
    fn turn(&self, delay: i32) -> i32 {
        if self.turned { -delay } else { delay }
    }

    /// The delay in the order given, out of the pair's record.
    fn delay_in(&self, record: &[u8]) -> Answer<i32> {
        let bytes = record.try_into().map_err(|_| number::DELAY)?;
        let delay = check_delay(i32::from_le_bytes(bytes))?;
        Ok(self.turn(delay))
    }
}

fn check_delay(delay: i32) -> Answer<i32> {
    if delay == NO_DELAY {
        return Err(number::DELAY);
    }
    Ok(delay)
}

/// The image's own numbers come before those of the pair.
pub fn ask(block: &[u8], image: &[u8], a: u32, b: u32) -> Answer<i32> {
    accept(block, image)?;
    let pair = Pair::of(a, b)?;
    let found = search::find(block, image, &pair.key)?.map_err(|_| number::ABSENT)?;
    pair.delay_in(&image[found.entry.value_at..][..found.entry.value_length])
}

/// Of the image's own numbers only that of the frame is known here. What the
/// walk meets comes after those of the pair and before the record.
pub fn quick_ask(block: &[u8], image: &[u8], a: u32, b: u32) -> Answer<i32> {
    let frame = Frame::read(Settings::read(block)?, image)?;
    let pair = Pair::of(a, b)?;
    match quick::walk(&frame, image, &pair.key)? {
        End::Key { stored, .. } => pair.delay_in(stored.value),
        End::Empty { .. } => Err(number::ABSENT),
    }
}

pub fn set(block: &[u8], image: &mut [u8], a: u32, b: u32, delay: i32) -> Answer<()> {
    accept(block, image)?;
    let pair = Pair::of(a, b)?;
    let delay = check_delay(delay)?;
    let record = pair.turn(delay).to_le_bytes();
    edit::store(Kind::OnTheSpot, block, image, &pair.key, &record)
}
