//! The chains of tiers (number 5): one for each segment, and the free chain.

use crate::frame::Frame;
use crate::{Answer, number};

#[derive(Debug)]
pub struct Chains {
    /// Indexes of the chained tiers, segment after segment, in chain order.
    chained: Vec<u16>,
    /// Where each segment begins in `chained`, and the end of the last.
    starts: Vec<u16>,
    pub free: Vec<u16>,
}

impl Chains {
    pub fn read(frame: &Frame, image: &[u8]) -> Answer<Chains> {
        let mut walk = Walk {
            frame,
            image,
            seen: vec![false; frame.tiers + 1],
        };
        let segments = frame.settings.segments;
        let mut chained = Vec::with_capacity(frame.tiers);
        let mut starts = Vec::with_capacity(segments + 1);
        for segment in 0..segments {
            starts.push(chained.len() as u16);
            walk.segment_chain(segment, &mut chained)
                .ok_or(number::CHAINS)?;
        }
        starts.push(chained.len() as u16);
        let free = walk.free_chain().ok_or(number::CHAINS)?;
        let used = (chained.len() - segments) as u64;
        // No tier was met twice, so the sum tells whether one was missed.
        if frame.used(image) != used || chained.len() + free.len() != frame.tiers {
            return Err(number::CHAINS);
        }
        Ok(Chains {
            chained,
            starts,
            free,
        })
    }

    pub fn of(&self, segment: usize) -> &[u16] {
        &self.chained[self.starts[segment] as usize..self.starts[segment + 1] as usize]
    }

    pub fn chained_tiers(&self) -> usize {
        self.chained.len()
    }
}

struct Walk<'a> {
    frame: &'a Frame,
    image: &'a [u8],
    seen: Vec<bool>,
}

impl Walk<'_> {
    fn segment_chain(&mut self, segment: usize, chained: &mut Vec<u16>) -> Option<()> {
        let mut index = segment + 1;
        let mut previous = 0;
        for order in 0.. {
            let tier = self.frame.tier(index);
            if !tier.stands_at(self.image, previous, segment, order) {
                return None;
            }
            chained.push(index as u16);
            previous = index;
            match tier.next(self.image) {
                0 => break,
                next => index = self.visit(next)?,
            }
        }
        Some(())
    }

    fn free_chain(&mut self) -> Option<Vec<u16>> {
        let mut free = Vec::new();
        let mut next = self.frame.first_free(self.image);
        while next != 0 {
            let index = self.visit(next)?;
            free.push(index as u16);
            next = self.frame.tier(index).next(self.image);
        }
        Some(free)
    }

    /// An extra tier that no chain has met yet; this is also what ends every
    /// walk.
    fn visit(&mut self, index: u64) -> Option<usize> {
        if !self.frame.is_extra(index) {
            return None;
        }
        let index = index as usize;
        (!std::mem::replace(&mut self.seen[index], true)).then_some(index)
    }
}
