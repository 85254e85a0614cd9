//! Lengths in unsigned LEB128, shortest form only.

/// No length in an entry needs more bytes than 65,535 does.
const MOST_BYTES: usize = 3;

/// The number at the front of `bytes` and how many bytes it takes. None if
/// it does not end in time or has a needless last byte.
pub fn read(bytes: &[u8]) -> Option<(usize, usize)> {
    let first = *bytes.first()?;
    if first < 0x80 {
        return Some((first as usize, 1));
    }
    let mut number = (first & 0x7F) as usize;
    for place in 1..MOST_BYTES {
        let byte = *bytes.get(place)?;
        number |= ((byte & 0x7F) as usize) << (7 * place);
        if byte < 0x80 {
            return (byte != 0).then_some((number, place + 1));
        }
    }
    None
}

/// How many bytes `number` takes.
pub fn size(number: usize) -> usize {
    let bits = (usize::BITS - number.leading_zeros()).max(1);
    bits.div_ceil(7) as usize
}

/// Writes `number` to the front of `bytes` and answers how many it took.
pub fn write(bytes: &mut [u8], mut number: usize) -> usize {
    let size = size(number);
    for byte in &mut bytes[..size] {
        *byte = (number & 0x7F) as u8 | 0x80;
        number >>= 7;
    }
    bytes[size - 1] &= 0x7F;
    size
}
