//! The bytes of stack that each call needs, beside what its thread needs to start.
use crate::chains::{colliding, FULL};
use crate::painted::deepest;
use crate::store::{key, store, Plan, Store, ORDINARY};
use chronicle_map::ffi;
use std::cmp::Reverse;

/// A call's name and the bytes that it needs.
type Need = (&'static str, usize);

/// Full chains for which a check that takes the square is still quick.
const TIERS: usize = 4;

fn scenes() -> [(&'static str, Store); 4] {
    let full = Plan { tiers: TIERS, spare: true, ..FULL };
    [
        ("one tier to a chain", store(Plan { segments: 4, ..ORDINARY })),
        ("4 full tiers, K = 32", store(full)),
        ("4 full tiers, K = 1", store(Plan { key_bits: 1, ..full })),
        ("4 full tiers, keys made to collide", store(Plan { spare: true, ..colliding(TIERS) })),
    ]
}

/// What a call needs beyond a function that does nothing. It must answer the number, so that it went its whole way.
fn need(number: u32, mut call: impl FnMut() -> u32) -> usize {
    let mut answer = u32::MAX;
    let deep = deepest(&mut || answer = call());
    assert_eq!(answer, number);
    deep.saturating_sub(deepest(&mut || ()))
}

/// An edit that must be done, on the image of its own that it is given.
fn edit(mut image: Vec<u8>, call: impl Fn(&mut [u8]) -> u32) -> usize {
    need(0, || call(&mut image))
}

fn reads(s: &Store, absent: &[u8]) -> Vec<Need> {
    let (b, m, last) = (&s.block[..], &s.image[..], s.keys.len() as u64 - 1);
    let (mut counts, mut place, mut row) = ([0; 4], [0; 4], [0; 7]);
    let there = &s.keys[last as usize];
    vec![
        ("check", need(0, || ffi::check(b, m, &mut counts))),
        ("lookup", need(0, || ffi::lookup(b, m, there, &mut place))),
        ("lookup, absent key", need(1, || ffi::lookup(b, m, absent, &mut place))),
        ("quick_lookup", need(0, || ffi::quick_lookup(b, m, there, &mut place))),
        ("quick_lookup, absent key", need(1, || ffi::quick_lookup(b, m, absent, &mut place))),
        ("entry", need(0, || ffi::entry(b, m, last, &mut row))),
    ]
}

/// The new key goes to the spare tier where all others are full, so that a tier joins, and goes home when the key is removed.
fn edits(s: &Store, new: &[u8]) -> Vec<Need> {
    let (b, image) = (&s.block[..], || s.image.clone());
    let (there, record) = (&s.keys[s.keys.len() - 1], [1]);
    let mut stored = image();
    assert_eq!(ffi::store(b, &mut stored, new, &record), 0);
    let mut room = image();
    room.resize(s.image.len() + s.bulk, 0xFF);
    vec![
        ("store, replaced on the spot", edit(image(), |m| ffi::store(b, m, there, &record))),
        ("store, new key", edit(image(), |m| ffi::store(b, m, new, &record))),
        ("store_tight, replaced", edit(image(), |m| ffi::store_tight(b, m, there, &record))),
        ("store_tight, new key", edit(image(), |m| ffi::store_tight(b, m, new, &record))),
        ("remove", edit(image(), |m| ffi::remove(b, m, there))),
        ("remove, the new key", edit(stored, |m| ffi::remove(b, m, new))),
        ("grow", edit(room, |m| ffi::grow(b, m))),
    ]
}

fn delays(s: &Store) -> Vec<Need> {
    let (b, mut delay, mut set) = (&s.block[..], 0, s.image.clone());
    let new = edit(set.clone(), |m| ffi::set_delay(b, m, 2, 1, -25));
    assert_eq!(ffi::set_delay(b, &mut set, 2, 1, -25), 0);
    vec![
        ("set_delay, new pair", new),
        ("set_delay, replaced", edit(set.clone(), |m| ffi::set_delay(b, m, 1, 2, 40))),
        ("delay", need(0, || ffi::delay(b, &set, 1, 2, &mut delay))),
        ("quick_delay", need(0, || ffi::quick_delay(b, &set, 1, 2, &mut delay))),
    ]
}

/// Each call on each store. The stores have the first of all keys; the absent one is far behind.
pub fn table() {
    let scenes = scenes();
    let needs = scenes.each_ref().map(|(_, s)| {
        let absent = &key(1 << 31)[..s.keys[0].len()];
        [reads(s, absent), edits(s, absent), delays(s)].concat()
    });
    let names = scenes.each_ref().map(|(name, _)| *name);
    println!("\n| stack, bytes | {} |\n|-|-|-|-|-|", names.join(" | "));
    for (i, (call, _)) in needs[0].iter().enumerate() {
        println!("| {call} | {} |", needs.each_ref().map(|of| of[i].1.to_string()).join(" | "));
    }
    let all = needs.iter().zip(names).flat_map(|(of, name)| of.iter().map(move |(call, bytes)| (*bytes, *call, name)));
    // The first of the largest.
    let (bytes, call, name) = all.min_by_key(|(bytes, ..)| Reverse(*bytes)).expect("some calls");
    println!("\nThe largest stack that a call needs: {bytes} bytes ({call}; {name}). The aim: below 131072.");
}
