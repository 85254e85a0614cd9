//! One call to both implementations at a time, on two copies of an image,
//! with every number and every byte compared afterwards.

mod copies;
mod quick;

use crate::kinds::Kind;
use crate::subject;
use crate::tally::{CALLS, Tally};

/// A difference, told in words.
pub type Outcome<T> = Result<T, String>;

/// Bytes around the subject's image that it must leave alone.
const GUARD: usize = 64;
const GUARD_BYTE: u8 = 0x5C;

pub struct Pair<'a> {
    block: Vec<u8>,
    ours: Vec<u8>,
    theirs: Vec<u8>,
    before: Vec<u8>,
    tally: &'a mut Tally,
}

impl<'a> Pair<'a> {
    pub fn new(block: Vec<u8>, image: Vec<u8>, tally: &'a mut Tally) -> Pair<'a> {
        let mut theirs = vec![GUARD_BYTE; image.len() + 2 * GUARD];
        theirs[GUARD..GUARD + image.len()].copy_from_slice(&image);
        Pair {
            block,
            ours: image,
            theirs,
            before: Vec::new(),
            tally,
        }
    }

    pub fn image(&self) -> &[u8] {
        &self.ours
    }

    /// The image before the last edit.
    pub fn before(&self) -> &[u8] {
        &self.before
    }

    fn their_image(&self) -> &[u8] {
        &self.theirs[GUARD..self.theirs.len() - GUARD]
    }

    pub fn check(&mut self) -> Outcome<(u32, [u64; 4])> {
        let ours = reference::check(&self.block, &self.ours);
        let theirs = subject::check(&self.block, self.their_image());
        same("check", ours, theirs)?;
        self.settle(0, ours.0)?;
        Ok(ours)
    }

    pub fn lookup(&mut self, key: &[u8]) -> Outcome<(u32, [u64; 4])> {
        let ours = reference::lookup(&self.block, &self.ours, key);
        let theirs = subject::lookup(&self.block, self.their_image(), key);
        same(&format!("lookup of {}", short(key)), ours, theirs)?;
        if ours.0 > 1 && ours.1 != [0; 4] {
            return Err(format!("lookup: {ours:?}, but a refusal has zeros"));
        }
        let quick = self.quick_lookup(key)?;
        quick::as_checked("lookup", ours, quick)?;
        self.settle(1, ours.0)?;
        Ok(ours)
    }

    pub fn entry(&mut self, n: u64) -> Outcome<(u32, [u64; 7])> {
        let ours = reference::entry(&self.block, &self.ours, n);
        let theirs = subject::entry(&self.block, self.their_image(), n);
        same(&format!("entry {n}"), ours, theirs)?;
        self.settle(5, ours.0)?;
        Ok(ours)
    }

    pub fn store(&mut self, kind: Kind, key: &[u8], value: &[u8]) -> Outcome<u32> {
        let (our_store, their_store) = kind.calls();
        self.remember();
        let ours = our_store(&self.block, &mut self.ours, key, value);
        let end = self.theirs.len() - GUARD;
        let theirs = their_store(&self.block, &mut self.theirs[GUARD..end], key, value);
        let call = match kind {
            Kind::OnTheSpot => 2,
            Kind::Tight => 3,
        };
        self.settle_edit(call, &told(kind, key, value), ours, theirs)
    }

    pub fn remove(&mut self, key: &[u8]) -> Outcome<u32> {
        self.remember();
        let ours = reference::remove(&self.block, &mut self.ours, key);
        let end = self.theirs.len() - GUARD;
        let theirs = subject::remove(&self.block, &mut self.theirs[GUARD..end], key);
        self.settle_edit(4, &format!("removal of {}", short(key)), ours, theirs)
    }

    pub fn delay(&mut self, a: u32, b: u32) -> Outcome<(u32, i32)> {
        let ours = reference::delay(&self.block, &self.ours, a, b);
        let theirs = subject::delay(&self.block, self.their_image(), a, b);
        same(&format!("delay of {a} {b}"), ours, theirs)?;
        let quick = self.quick_delay(a, b)?;
        quick::as_checked("delay", ours, quick)?;
        self.settle(6, ours.0)?;
        Ok(ours)
    }

    pub fn set_delay(&mut self, a: u32, b: u32, delay: i32) -> Outcome<u32> {
        self.remember();
        let ours = reference::set_delay(&self.block, &mut self.ours, a, b, delay);
        let end = self.theirs.len() - GUARD;
        let theirs = subject::set_delay(&self.block, &mut self.theirs[GUARD..end], a, b, delay);
        self.settle_edit(7, &format!("set of {a} {b} to {delay}"), ours, theirs)
    }

    pub fn grow(&mut self) -> Outcome<u32> {
        self.remember();
        let ours = reference::grow(&self.block, &mut self.ours);
        let end = self.theirs.len() - GUARD;
        let theirs = subject::grow(&self.block, &mut self.theirs[GUARD..end]);
        self.settle_edit(8, "one bulk more", ours, theirs)
    }

    /// Counts that something planned came up.
    pub fn met(&mut self, what: String) {
        *self.tally.met.entry(what).or_default() += 1;
    }

    fn remember(&mut self) {
        self.before.clone_from(&self.ours);
    }

    fn settle_edit(&mut self, call: usize, what: &str, ours: u32, theirs: u32) -> Outcome<u32> {
        same(what, ours, theirs)?;
        if ours != 0 && self.ours != self.before {
            return Err(format!("{what}: answers {ours} and has changed the image"));
        }
        self.settle(call, ours)
            .map_err(|difference| format!("{what}: {difference}"))?;
        Ok(ours)
    }

    /// What holds after every call: the same bytes on both sides, and the
    /// guards as they were.
    fn settle(&mut self, call: usize, number: u32) -> Outcome<()> {
        self.tally.note(call, number)?;
        self.same_images(CALLS[call].0)
    }

    pub fn same_images(&self, what: &str) -> Outcome<()> {
        same_bytes(what, &self.ours, self.their_image())?;
        let (front, rest) = self.theirs.split_at(GUARD);
        let back = &rest[rest.len() - GUARD..];
        if front.iter().chain(back).any(|&byte| byte != GUARD_BYTE) {
            return Err(format!("{what}: bytes around the image are changed"));
        }
        Ok(())
    }
}

pub fn xxh64(bytes: &[u8], tally: &mut Tally) -> Outcome<()> {
    tally.hashes += 1;
    let what = format!("xxh64 of {} bytes", bytes.len());
    same(&what, reference::xxh64(bytes), subject::xxh64(bytes))
}

fn same<T: PartialEq + std::fmt::Debug>(what: &str, ours: T, theirs: T) -> Outcome<()> {
    if ours != theirs {
        return Err(format!(
            "{what}: {ours:?} by reference, {theirs:?} by subject"
        ));
    }
    Ok(())
}

fn same_bytes(what: &str, ours: &[u8], theirs: &[u8]) -> Outcome<()> {
    let Some(at) = difference(ours, theirs) else {
        return Ok(());
    };
    let (our, their) = (ours[at], theirs[at]);
    Err(format!(
        "{what}: byte {at} is {our} by reference, {their} by subject"
    ))
}

/// The first byte that differs in images of the same length.
pub fn difference(one: &[u8], other: &[u8]) -> Option<usize> {
    if one == other {
        return None;
    }
    one.iter().zip(other).position(|(one, other)| one != other)
}

fn told(kind: Kind, key: &[u8], value: &[u8]) -> String {
    let name = kind.name();
    format!("{name} of {} bytes under {}", value.len(), short(key))
}

pub fn short(key: &[u8]) -> String {
    match key.len() {
        0..=16 => format!("key {key:02X?}"),
        length => format!("a key of {length} bytes, first {:02X?}", &key[..8]),
    }
}
