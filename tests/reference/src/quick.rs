//! A lookup without the check of the whole image: settings, frame and key,
//! then the walk along the key's chain. The walk tests what it comes to on its
//! way and nothing else, and the first thing that it meets is the answer.

use crate::frame::Frame;
use crate::record::{Stored, check_key};
use crate::settings::Settings;
use crate::tier::Tier;
use crate::{Answer, number};

/// Where a walk ended that met nothing broken, with the tier's index.
#[derive(Clone, Copy, Debug)]
pub enum End<'a> {
    /// The slot of the key's entry.
    Key {
        tier: usize,
        slot: usize,
        stored: Stored<'a>,
    },
    /// The empty slot that ended the search of the chain's last tier.
    Empty { tier: usize, slot: usize },
}

/// An absent key is no failure here, since it has a tier and a slot.
pub fn lookup(block: &[u8], image: &[u8], key: &[u8]) -> Answer<(u32, [u64; 4])> {
    let frame = Frame::read(Settings::read(block)?, image)?;
    check_key(key)?;
    let (number, numbers) = match walk(&frame, image, key)? {
        End::Key { tier, slot, stored } => (0, [stored.value_at, stored.value.len(), tier, slot]),
        End::Empty { tier, slot } => (number::ABSENT, [0, 0, tier, slot]),
    };
    Ok((number, numbers.map(|number| number as u64)))
}

/// From the main tier of the key's segment to the key or to a next of 0. Any
/// extra tier may be next; only their number ends a walk in a circle.
pub fn walk<'a>(frame: &Frame, image: &'a [u8], key: &[u8]) -> Answer<End<'a>> {
    let settings = &frame.settings;
    let parts = settings.hash_parts(key);
    let mut index = parts.segment + 1;
    for _ in 0..frame.tiers {
        let tier = frame.tier(index);
        let end = search(settings, image, &tier, parts.lookup_key, key).ok_or(number::WALK)?;
        if let End::Key { .. } = end {
            return Ok(end);
        }
        match tier.next(image) {
            0 => return Ok(end),
            next if frame.is_extra(next) => index = next as usize,
            _ => break,
        }
    }
    Err(number::WALK)
}

/// Searches a tier upward from the key's start slot, wrapping. A slot with
/// the key's lookup key must lead to a good entry, also if that has another
/// key; the other slots are passed over. None if such an entry is broken or
/// if all slots are full and none is the key's.
fn search<'a>(
    settings: &Settings,
    image: &'a [u8],
    tier: &Tier,
    lookup_key: u64,
    key: &[u8],
) -> Option<End<'a>> {
    let mut place = settings.start_slot(lookup_key);
    for _ in 0..settings.slots {
        let slot = settings.slot_at(image, tier, place);
        if slot == 0 {
            let (tier, slot) = (tier.index, place);
            return Some(End::Empty { tier, slot });
        }
        if settings.lookup_key(slot) == lookup_key {
            let stored = settings.stored_at(image, tier, settings.named_chunk(slot))?;
            if stored.key == key {
                let (tier, slot) = (tier.index, place);
                return Some(End::Key { tier, slot, stored });
            }
        }
        place = settings.next_slot(place);
    }
    None
}
