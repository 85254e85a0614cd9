//! Little-endian numbers at any offset; nothing in an image is aligned.

pub fn u32_at(bytes: &[u8], at: usize) -> u32 {
    u32::from_le_bytes(*array_at(bytes, at))
}

pub fn u64_at(bytes: &[u8], at: usize) -> u64 {
    u64::from_le_bytes(*array_at(bytes, at))
}

/// A number of `width` bytes, at most 8.
#[inline(always)]
pub fn uint_at(bytes: &[u8], at: usize, width: usize) -> u64 {
    let mut wide = [0; 8];
    wide[..width].copy_from_slice(&bytes[at..at + width]);
    u64::from_le_bytes(wide)
}

/// Writes the low `width` bytes of `value`.
pub fn put_uint(bytes: &mut [u8], at: usize, width: usize, value: u64) {
    bytes[at..at + width].copy_from_slice(&value.to_le_bytes()[..width]);
}

fn array_at<const WIDTH: usize>(bytes: &[u8], at: usize) -> &[u8; WIDTH] {
    bytes[at..]
        .first_chunk()
        .expect("the frame keeps every field inside the image")
}

/// Looks at every byte: without a way out of the loop it runs many at once.
pub fn all_zero(bytes: &[u8]) -> bool {
    bytes.iter().fold(0, |seen, byte| seen | byte) == 0
}
