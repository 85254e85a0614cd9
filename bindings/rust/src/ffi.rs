//! The functions of `include/chronicle_map.h`, each behind a safe one of the same name: the only unsafe code of this crate.
//!
//! What the header requires of a caller is what the types here say. A slice's pointer is never null and has as many bytes
//! as its length; what is `&mut` overlaps nothing and nobody else touches it; what is `&` nobody writes to. The functions
//! require nothing else.

mod c {
    extern "C" {
        pub fn chronicle_map_check(
            block: *const u8,
            block_len: usize,
            image: *const u8,
            image_len: usize,
            counts: *mut u64,
        ) -> u32;
        pub fn chronicle_map_lookup(
            block: *const u8,
            block_len: usize,
            image: *const u8,
            image_len: usize,
            key: *const u8,
            key_len: usize,
            place: *mut u64,
        ) -> u32;
        pub fn chronicle_map_quick_lookup(
            block: *const u8,
            block_len: usize,
            image: *const u8,
            image_len: usize,
            key: *const u8,
            key_len: usize,
            place: *mut u64,
        ) -> u32;
        pub fn chronicle_map_store(
            block: *const u8,
            block_len: usize,
            image: *mut u8,
            image_len: usize,
            key: *const u8,
            key_len: usize,
            value: *const u8,
            value_len: usize,
        ) -> u32;
        pub fn chronicle_map_store_tight(
            block: *const u8,
            block_len: usize,
            image: *mut u8,
            image_len: usize,
            key: *const u8,
            key_len: usize,
            value: *const u8,
            value_len: usize,
        ) -> u32;
        pub fn chronicle_map_remove(
            block: *const u8,
            block_len: usize,
            image: *mut u8,
            image_len: usize,
            key: *const u8,
            key_len: usize,
        ) -> u32;
        pub fn chronicle_map_grow(
            block: *const u8,
            block_len: usize,
            image: *mut u8,
            image_len: usize,
        ) -> u32;
        pub fn chronicle_map_entry(
            block: *const u8,
            block_len: usize,
            image: *const u8,
            image_len: usize,
            n: u64,
            row: *mut u64,
        ) -> u32;
        pub fn chronicle_map_delay(
            block: *const u8,
            block_len: usize,
            image: *const u8,
            image_len: usize,
            a: u32,
            b: u32,
            delay: *mut i32,
        ) -> u32;
        pub fn chronicle_map_quick_delay(
            block: *const u8,
            block_len: usize,
            image: *const u8,
            image_len: usize,
            a: u32,
            b: u32,
            delay: *mut i32,
        ) -> u32;
        pub fn chronicle_map_set_delay(
            block: *const u8,
            block_len: usize,
            image: *mut u8,
            image_len: usize,
            a: u32,
            b: u32,
            delay: i32,
        ) -> u32;
        pub fn chronicle_map_xxh64(bytes: *const u8, len: usize) -> u64;
    }
}

/// The check: its number; the counts are live entries, marked chunks, chained tiers, free tiers.
pub fn check(block: &[u8], image: &[u8], counts: &mut [u64; 4]) -> u32 {
    // SAFETY: the parameters' types say all that the C function requires (see above).
    unsafe {
        c::chronicle_map_check(
            block.as_ptr(),
            block.len(),
            image.as_ptr(),
            image.len(),
            counts.as_mut_ptr(),
        )
    }
}

/// Both kinds of lookup have these parameters.
type Lookup =
    unsafe extern "C" fn(*const u8, usize, *const u8, usize, *const u8, usize, *mut u64) -> u32;

fn lookup_by(kind: Lookup, block: &[u8], image: &[u8], key: &[u8], place: &mut [u64; 4]) -> u32 {
    // SAFETY: as in `check`.
    unsafe {
        kind(
            block.as_ptr(),
            block.len(),
            image.as_ptr(),
            image.len(),
            key.as_ptr(),
            key.len(),
            place.as_mut_ptr(),
        )
    }
}

/// A lookup: its number; the place is the record's offset and length, and the tier and slot of its entry or of the search's end.
pub fn lookup(block: &[u8], image: &[u8], key: &[u8], place: &mut [u64; 4]) -> u32 {
    lookup_by(c::chronicle_map_lookup, block, image, key, place)
}

/// A quick lookup: its number; the place is as in `lookup`.
pub fn quick_lookup(block: &[u8], image: &[u8], key: &[u8], place: &mut [u64; 4]) -> u32 {
    lookup_by(c::chronicle_map_quick_lookup, block, image, key, place)
}

/// Both kinds of store have these parameters.
type Store = unsafe extern "C" fn(
    *const u8,
    usize,
    *mut u8,
    usize,
    *const u8,
    usize,
    *const u8,
    usize,
) -> u32;

fn store_by(kind: Store, block: &[u8], image: &mut [u8], key: &[u8], value: &[u8]) -> u32 {
    // SAFETY: as in `check`.
    unsafe {
        kind(
            block.as_ptr(),
            block.len(),
            image.as_mut_ptr(),
            image.len(),
            key.as_ptr(),
            key.len(),
            value.as_ptr(),
            value.len(),
        )
    }
}

/// A store: its number.
pub fn store(block: &[u8], image: &mut [u8], key: &[u8], value: &[u8]) -> u32 {
    store_by(c::chronicle_map_store, block, image, key, value)
}

/// A tight store: its number.
pub fn store_tight(block: &[u8], image: &mut [u8], key: &[u8], value: &[u8]) -> u32 {
    store_by(c::chronicle_map_store_tight, block, image, key, value)
}

/// A removal: its number.
pub fn remove(block: &[u8], image: &mut [u8], key: &[u8]) -> u32 {
    // SAFETY: as in `check`.
    unsafe {
        c::chronicle_map_remove(
            block.as_ptr(),
            block.len(),
            image.as_mut_ptr(),
            image.len(),
            key.as_ptr(),
            key.len(),
        )
    }
}

/// A grow, which adds one bulk: its number.
pub fn grow(block: &[u8], image: &mut [u8]) -> u32 {
    // SAFETY: as in `check`.
    unsafe { c::chronicle_map_grow(block.as_ptr(), block.len(), image.as_mut_ptr(), image.len()) }
}

/// The n-th entry: its number; the row is a lister line's seven numbers.
pub fn entry(block: &[u8], image: &[u8], n: u64, row: &mut [u64; 7]) -> u32 {
    // SAFETY: as in `check`.
    unsafe {
        c::chronicle_map_entry(
            block.as_ptr(),
            block.len(),
            image.as_ptr(),
            image.len(),
            n,
            row.as_mut_ptr(),
        )
    }
}

/// Both kinds of delay lookup have these parameters.
type Ask = unsafe extern "C" fn(*const u8, usize, *const u8, usize, u32, u32, *mut i32) -> u32;

fn delay_by(kind: Ask, block: &[u8], image: &[u8], a: u32, b: u32, delay: &mut i32) -> u32 {
    // SAFETY: as in `check`.
    unsafe {
        kind(
            block.as_ptr(),
            block.len(),
            image.as_ptr(),
            image.len(),
            a,
            b,
            delay,
        )
    }
}

/// A delay lookup: its number; the delay is that of channels a and b, in that order.
pub fn delay(block: &[u8], image: &[u8], a: u32, b: u32, delay: &mut i32) -> u32 {
    delay_by(c::chronicle_map_delay, block, image, a, b, delay)
}

/// A quick delay lookup: its number; the delay is as in `delay`.
pub fn quick_delay(block: &[u8], image: &[u8], a: u32, b: u32, delay: &mut i32) -> u32 {
    delay_by(c::chronicle_map_quick_delay, block, image, a, b, delay)
}

/// A set of a pair's delay: its number.
pub fn set_delay(block: &[u8], image: &mut [u8], a: u32, b: u32, delay: i32) -> u32 {
    // SAFETY: as in `check`.
    unsafe {
        c::chronicle_map_set_delay(
            block.as_ptr(),
            block.len(),
            image.as_mut_ptr(),
            image.len(),
            a,
            b,
            delay,
        )
    }
}

/// XXH64 of some bytes, seed 0.
pub fn xxh64(bytes: &[u8]) -> u64 {
    // SAFETY: as in `check`.
    unsafe { c::chronicle_map_xxh64(bytes.as_ptr(), bytes.len()) }
}
