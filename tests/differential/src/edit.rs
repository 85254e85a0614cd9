//! An edit of a history that was answered 0: its image before and after.

use crate::oracle::Oracle;
use crate::plan::Plan;

pub struct Edit<'a> {
    pub plan: &'a Plan,
    pub before: &'a [u8],
    pub after: &'a [u8],
    pub key: &'a [u8],
    /// The segment of the key.
    pub segment: usize,
    pub deed: Deed,
}

#[derive(Clone, Copy, PartialEq)]
pub enum Deed {
    Removed,
    /// The tier that a store has put its entry in.
    Placed(usize),
    /// The tier in which a record was replaced where it stood.
    OnTheSpot(usize),
}

impl<'a> Edit<'a> {
    /// The image that it got.
    pub fn got(&self) -> Oracle<'a> {
        Oracle {
            plan: self.plan,
            image: self.before,
        }
    }

    /// The image that it left.
    pub fn left(&self) -> Oracle<'a> {
        Oracle {
            plan: self.plan,
            image: self.after,
        }
    }

    /// The chain of the key's segment before the edit.
    pub fn chain(&self) -> Vec<usize> {
        self.got().chain(self.segment)
    }
}
