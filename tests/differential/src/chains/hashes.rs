//! Keys with a wished hash. XXH64 takes in a key's last whole word by steps
//! that can be taken back, so that word follows from the hash and the rest.

const PRIME_1: u64 = 0x9E37_79B1_85EB_CA87;
const PRIME_2: u64 = 0xC2B2_AE3D_27D4_EB4F;
const PRIME_3: u64 = 0x1656_67B1_9E37_79F9;
const PRIME_4: u64 = 0x85EB_CA77_C2B2_AE63;
const PRIME_5: u64 = 0x27D4_EB2F_1656_67C5;

/// `front`, a word that is worked out, and `tail`. The front is whole words,
/// the tail less than one, and what follows the front's stripes of 32 bytes
/// is less than a stripe.
pub fn key_with(hash: u64, front: &[u8], tail: &[u8]) -> Vec<u8> {
    let length = front.len() + 8 + tail.len();
    let before = before_word(front, length);
    let mixed = over(
        undo(after_word(hash, tail), PRIME_4, 27, PRIME_1) ^ before,
        PRIME_1,
    );
    let word = over(mixed.rotate_right(31), PRIME_2);
    [front, &word.to_le_bytes(), tail].concat()
}

/// The hash's state when the word comes. That after whole stripes is taken
/// from the hash of these alone.
fn before_word(front: &[u8], length: usize) -> u64 {
    let (stripes, words) = front.split_at(front.len() / 32 * 32);
    let start = match stripes.len() {
        0 => PRIME_5,
        taken => before_end(reference::xxh64(stripes)).wrapping_sub(taken as u64),
    };
    let words = words.as_chunks::<8>().0.iter();
    words.fold(start.wrapping_add(length as u64), |state, word| {
        let mixed = u64::from_le_bytes(*word).wrapping_mul(PRIME_2);
        let mixed = mixed.rotate_left(31).wrapping_mul(PRIME_1);
        let state = (state ^ mixed).rotate_left(27);
        state.wrapping_mul(PRIME_1).wrapping_add(PRIME_4)
    })
}

/// The state after the word: the last steps and the tail's are taken back.
fn after_word(hash: u64, tail: &[u8]) -> u64 {
    let (halves, bytes) = tail.as_chunks::<4>();
    let bytes = bytes.iter().rev();
    let state = bytes.fold(before_end(hash), |state, &byte| {
        undo(state, 0, 11, PRIME_1) ^ u64::from(byte).wrapping_mul(PRIME_5)
    });
    let halves = halves.iter().rev();
    halves.fold(state, |state, half| {
        let half = u64::from(u32::from_le_bytes(*half));
        undo(state, PRIME_3, 23, PRIME_2) ^ half.wrapping_mul(PRIME_1)
    })
}

fn before_end(hash: u64) -> u64 {
    let state = over(hash ^ (hash >> 32), PRIME_3);
    let state = over(state ^ (state >> 29) ^ (state >> 58), PRIME_2);
    state ^ (state >> 33)
}

/// Takes back a rotation, a product and a sum.
fn undo(state: u64, added: u64, rotated: u32, by: u64) -> u64 {
    over(state.wrapping_sub(added), by).rotate_right(rotated)
}

/// Takes back a product with an odd number.
fn over(product: u64, by: u64) -> u64 {
    // Each step doubles the low bits in which it is the inverse.
    let inverse = (0..6).fold(by, |inverse, _| {
        inverse.wrapping_mul(2u64.wrapping_sub(by.wrapping_mul(inverse)))
    });
    product.wrapping_mul(inverse)
}
