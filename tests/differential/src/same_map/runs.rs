//! Who answers the calls on a store: subject and reference, compared to the
//! byte, or the subject alone.

use crate::compare::{Outcome, Pair};
use crate::kinds::Kind;
use crate::subject;

type Lookup = (u32, [u64; 4]);

pub trait Run {
    fn lookup(&mut self, key: &[u8]) -> Outcome<Lookup>;
    fn quick_lookup(&mut self, key: &[u8]) -> Outcome<Lookup>;
    fn store(&mut self, kind: Kind, key: &[u8], value: &[u8]) -> Outcome<u32>;
    fn remove(&mut self, key: &[u8]) -> Outcome<u32>;
    fn delay(&mut self, a: u32, b: u32) -> Outcome<(u32, i32)>;
    fn quick_delay(&mut self, a: u32, b: u32) -> Outcome<(u32, i32)>;
    fn set_delay(&mut self, a: u32, b: u32, delay: i32) -> Outcome<u32>;
    fn check_of(&self, image: &[u8]) -> Outcome<(u32, [u64; 4])>;
    fn image(&self) -> &[u8];
    /// The image that the last edit got.
    fn before(&self) -> &[u8];
}

impl Run for Pair<'_> {
    fn lookup(&mut self, key: &[u8]) -> Outcome<Lookup> {
        Pair::lookup(self, key)
    }

    fn quick_lookup(&mut self, key: &[u8]) -> Outcome<Lookup> {
        Pair::quick_lookup(self, key)
    }

    fn store(&mut self, kind: Kind, key: &[u8], value: &[u8]) -> Outcome<u32> {
        Pair::store(self, kind, key, value)
    }

    fn remove(&mut self, key: &[u8]) -> Outcome<u32> {
        Pair::remove(self, key)
    }

    fn delay(&mut self, a: u32, b: u32) -> Outcome<(u32, i32)> {
        Pair::delay(self, a, b)
    }

    fn quick_delay(&mut self, a: u32, b: u32) -> Outcome<(u32, i32)> {
        Pair::quick_delay(self, a, b)
    }

    fn set_delay(&mut self, a: u32, b: u32, delay: i32) -> Outcome<u32> {
        Pair::set_delay(self, a, b, delay)
    }

    fn check_of(&self, image: &[u8]) -> Outcome<(u32, [u64; 4])> {
        Pair::check_of(self, image)
    }

    fn image(&self) -> &[u8] {
        Pair::image(self)
    }

    fn before(&self) -> &[u8] {
        Pair::before(self)
    }
}

/// The subject alone: nothing but the other store's answers is held against
/// its own.
pub struct Alone {
    block: Vec<u8>,
    image: Vec<u8>,
    before: Vec<u8>,
}

impl Alone {
    pub fn new(block: Vec<u8>, image: Vec<u8>) -> Alone {
        Alone {
            block,
            image,
            before: Vec::new(),
        }
    }
}

impl Run for Alone {
    fn lookup(&mut self, key: &[u8]) -> Outcome<Lookup> {
        Ok(subject::lookup(&self.block, &self.image, key))
    }

    fn quick_lookup(&mut self, key: &[u8]) -> Outcome<Lookup> {
        Ok(subject::quick_lookup(&self.block, &self.image, key))
    }

    fn store(&mut self, kind: Kind, key: &[u8], value: &[u8]) -> Outcome<u32> {
        self.before.clone_from(&self.image);
        let (_, store) = kind.calls();
        Ok(store(&self.block, &mut self.image, key, value))
    }

    fn remove(&mut self, key: &[u8]) -> Outcome<u32> {
        self.before.clone_from(&self.image);
        Ok(subject::remove(&self.block, &mut self.image, key))
    }

    fn delay(&mut self, a: u32, b: u32) -> Outcome<(u32, i32)> {
        Ok(subject::delay(&self.block, &self.image, a, b))
    }

    fn quick_delay(&mut self, a: u32, b: u32) -> Outcome<(u32, i32)> {
        Ok(subject::quick_delay(&self.block, &self.image, a, b))
    }

    fn set_delay(&mut self, a: u32, b: u32, delay: i32) -> Outcome<u32> {
        self.before.clone_from(&self.image);
        Ok(subject::set_delay(
            &self.block,
            &mut self.image,
            a,
            b,
            delay,
        ))
    }

    fn check_of(&self, image: &[u8]) -> Outcome<(u32, [u64; 4])> {
        Ok(subject::check(&self.block, image))
    }

    fn image(&self) -> &[u8] {
        &self.image
    }

    fn before(&self) -> &[u8] {
        &self.before
    }
}
