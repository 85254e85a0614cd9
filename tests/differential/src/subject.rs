//! The implementation under test, with the same calls as the reference.

#[cfg(feature = "self-test")]
pub use reference::{
    check, delay, entry, grow, lookup, quick_delay, quick_lookup, remove, set_delay, store,
    store_tight, xxh64,
};

#[cfg(not(feature = "self-test"))]
pub use library::{
    check, delay, entry, grow, lookup, quick_delay, quick_lookup, remove, set_delay, store,
    store_tight, xxh64,
};

#[cfg(not(feature = "self-test"))]
mod library {
    use chronicle_map::ffi;
    pub use chronicle_map::ffi::{grow, remove, set_delay, store, store_tight, xxh64};

    /// Stands in every number before a call: one that the library forgets
    /// to write shows.
    const UNWRITTEN: u64 = 0xA5A5_A5A5_A5A5_A5A5;

    pub fn check(block: &[u8], image: &[u8]) -> (u32, [u64; 4]) {
        let mut counts = [UNWRITTEN; 4];
        (ffi::check(block, image, &mut counts), counts)
    }

    pub fn lookup(block: &[u8], image: &[u8], key: &[u8]) -> (u32, [u64; 4]) {
        let mut place = [UNWRITTEN; 4];
        (ffi::lookup(block, image, key, &mut place), place)
    }

    pub fn quick_lookup(block: &[u8], image: &[u8], key: &[u8]) -> (u32, [u64; 4]) {
        let mut place = [UNWRITTEN; 4];
        (ffi::quick_lookup(block, image, key, &mut place), place)
    }

    pub fn entry(block: &[u8], image: &[u8], n: u64) -> (u32, [u64; 7]) {
        let mut row = [UNWRITTEN; 7];
        (ffi::entry(block, image, n, &mut row), row)
    }

    pub fn delay(block: &[u8], image: &[u8], a: u32, b: u32) -> (u32, i32) {
        let mut delay = UNWRITTEN as i32;
        (ffi::delay(block, image, a, b, &mut delay), delay)
    }

    pub fn quick_delay(block: &[u8], image: &[u8], a: u32, b: u32) -> (u32, i32) {
        let mut delay = UNWRITTEN as i32;
        (ffi::quick_delay(block, image, a, b, &mut delay), delay)
    }
}
