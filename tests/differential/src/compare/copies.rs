//! Calls of both implementations on copies, beside the history: what another
//! call would have made of an image.

use super::{Outcome, Pair, same, same_bytes, short, told};
use crate::kinds::Kind;
use crate::subject;

type Edited = (u32, Vec<u8>);

impl Pair<'_> {
    /// The number of a store, and the image that it leaves.
    pub fn store_on(&self, image: &[u8], kind: Kind, key: &[u8], value: &[u8]) -> Outcome<Edited> {
        let (ours, theirs) = kind.calls();
        self.edit_on(
            image,
            &told(kind, key, value),
            |block, image| ours(block, image, key, value),
            |block, image| theirs(block, image, key, value),
        )
    }

    /// The number of a removal, and the image that it leaves.
    pub fn remove_on(&self, image: &[u8], key: &[u8]) -> Outcome<Edited> {
        self.edit_on(
            image,
            &format!("removal of {}", short(key)),
            |block, image| reference::remove(block, image, key),
            |block, image| subject::remove(block, image, key),
        )
    }

    fn edit_on(
        &self,
        image: &[u8],
        what: &str,
        our_edit: impl Fn(&[u8], &mut [u8]) -> u32,
        their_edit: impl Fn(&[u8], &mut [u8]) -> u32,
    ) -> Outcome<Edited> {
        let (mut ours, mut theirs) = (image.to_vec(), image.to_vec());
        let number = our_edit(&self.block, &mut ours);
        same(what, number, their_edit(&self.block, &mut theirs))?;
        same_bytes(what, &ours, &theirs)?;
        Ok((number, ours))
    }

    pub fn check_of(&self, image: &[u8]) -> Outcome<(u32, [u64; 4])> {
        let ours = reference::check(&self.block, image);
        same("check", ours, subject::check(&self.block, image))?;
        Ok(ours)
    }
}
