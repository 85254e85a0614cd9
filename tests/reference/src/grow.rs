//! One bulk more behind the last. As with the other edits, nothing is
//! written before it is known that the call answers 0.

use crate::bits::set_marks;
use crate::check::accept;
use crate::frame::Frame;
use crate::tier::Tier;
use crate::{Answer, number};

/// The new tiers come last in the store: the old ones keep their places and
/// indexes.
pub fn grow(block: &[u8], image: &mut [u8]) -> Answer<()> {
    let old = accept(block, image)?.frame;
    let grown = old.with_one_more_bulk(image).ok_or(number::BULK)?;
    // Each becomes the head of the free chain in its turn. With the last
    // first, they stand there in ascending order.
    for index in (old.tiers + 1..=grown.tiers).rev() {
        let tier = grown.tier(index);
        clear(&grown, image, &tier);
        let head = grown.first_free(image);
        tier.set_next(image, head);
        grown.set_first_free(image, index as u64);
    }
    grown.set_bulks(image);
    Ok(())
}

/// Zeros slots, counters and chunk bits, which may have held anything. Bytes
/// that no rule names stay, and so do the bits behind the last chunk.
fn clear(frame: &Frame, image: &mut [u8], tier: &Tier) {
    let settings = &frame.settings;
    image[tier.slots..tier.slots + settings.slots * settings.slot_size].fill(0);
    tier.clear_counters(image);
    set_marks(image, tier, 0, settings.chunks, false);
}
