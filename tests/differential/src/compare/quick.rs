//! The quick calls of both implementations. They are many on one image, whose
//! bytes are therefore compared once, after the last of them.

use super::{Outcome, Pair, same, short};
use crate::plan::Plan;
use crate::subject;
use crate::tally::{QUICK_DELAY, QUICK_LOOKUP};

/// A quick call's answer is the checked one's, unless that is a number which
/// only the check of the whole image can give.
pub fn as_checked<T>(what: &str, checked: (u32, T), quick: (u32, T)) -> Outcome<()>
where
    T: PartialEq + std::fmt::Debug,
{
    if !matches!(checked.0, 5..=7) && quick != checked {
        return Err(format!(
            "{what}: {checked:?}, but {quick:?} by the quick one"
        ));
    }
    Ok(())
}

impl Pair<'_> {
    pub fn quick_lookup(&mut self, key: &[u8]) -> Outcome<(u32, [u64; 4])> {
        let ours = reference::quick_lookup(&self.block, &self.ours, key);
        let theirs = subject::quick_lookup(&self.block, self.their_image(), key);
        same(&format!("quick lookup of {}", short(key)), ours, theirs)?;
        self.tally.note(QUICK_LOOKUP, ours.0)?;
        let (number, [offset, length, tier, slot]) = ours;
        let holds = match number {
            0 => offset + length <= self.ours.len() as u64 && tier > 0,
            1 => (offset, length) == (0, 0) && tier > 0,
            _ => (offset, length, tier, slot) == (0, 0, 0, 0),
        };
        if !holds {
            return Err(format!("quick lookup: no such place, {ours:?}"));
        }
        Ok(ours)
    }

    /// Both orders: the same number, and delays that sum to 0.
    pub fn quick_delay(&mut self, a: u32, b: u32) -> Outcome<(u32, i32)> {
        let one = self.quick_order(a, b)?;
        let other = self.quick_order(b, a)?;
        if one.0 != other.0 || i64::from(one.1) + i64::from(other.1) != 0 {
            return Err(format!("quick delay of {a} {b}: {one:?} and {other:?}"));
        }
        Ok(one)
    }

    fn quick_order(&mut self, a: u32, b: u32) -> Outcome<(u32, i32)> {
        let ours = reference::quick_delay(&self.block, &self.ours, a, b);
        let theirs = subject::quick_delay(&self.block, self.their_image(), a, b);
        same(&format!("quick delay of {a} {b}"), ours, theirs)?;
        self.tally.note(QUICK_DELAY, ours.0)?;
        if ours.0 != 0 && ours.1 != 0 {
            return Err(format!("quick delay: {ours:?}, but a refusal has 0"));
        }
        Ok(ours)
    }

    /// The block is the plan's, and the frame of the image is too.
    pub fn is_framed(&self, plan: &Plan) -> bool {
        self.block == plan.block() && plan.frames(&self.ours)
    }
}
