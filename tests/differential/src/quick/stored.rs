//! An entry of any bytes, read as far as they go, with all that is broken in
//! it. Apart from the reference: each rule by itself, in any order.

use crate::plan::Plan;

const CHUNK_N: &str = "a chunk of N";
const CHUNK_ABOVE: &str = "a chunk above N";
const KEY_FORM: &str = "a key length not in the shortest form";
const KEY_EMPTY: &str = "a key length of 0";
const KEY_LONG: &str = "a key length above 1,024";
const KEY_OUT: &str = "a key that runs out of the chunks";
const KEY_TO_END: &str = "a key that ends with the chunks";
const VALUE_FORM: &str = "a value length not in the shortest form";
const VALUE_LONG: &str = "a value length above 65,535";
const ONE_PAST: &str = "an end one byte past the chunks";
const FURTHER_PAST: &str = "an end further past the chunks";
/// No more of the entry can be read.
const CUT: &str = "a length that runs out of the chunks";

pub const FAULTS: [&str; 12] = [
    CHUNK_N,
    CHUNK_ABOVE,
    KEY_FORM,
    KEY_EMPTY,
    KEY_LONG,
    KEY_OUT,
    KEY_TO_END,
    VALUE_FORM,
    VALUE_LONG,
    ONE_PAST,
    FURTHER_PAST,
    CUT,
];

#[derive(Default)]
pub struct Stored<'a> {
    pub faults: Vec<&'static str>,
    /// Key and value are empty where they cannot be read.
    pub key: &'a [u8],
    pub value: &'a [u8],
    pub value_at: usize,
}

impl<'a> Stored<'a> {
    pub fn read(plan: &Plan, image: &'a [u8], tier: usize, chunk: usize) -> Stored<'a> {
        let mut stored = Stored::default();
        if chunk >= plan.chunks {
            let above = chunk > plan.chunks;
            stored
                .faults
                .push(if above { CHUNK_ABOVE } else { CHUNK_N });
            return stored;
        }
        let start = plan.chunk(tier, chunk);
        let bytes = &image[start..plan.chunk(tier, plan.chunks)];
        if let Some(rest) = stored.read_key(bytes) {
            stored.read_value(rest);
            stored.value_at = start + bytes.len() - rest.len() + size_of_length(rest);
        }
        stored
    }

    /// What follows the key, if that is inside.
    fn read_key(&mut self, bytes: &'a [u8]) -> Option<&'a [u8]> {
        let length = self.length(bytes, KEY_FORM)?;
        let rest = &bytes[size_of_length(bytes)..];
        match length {
            0 => self.faults.push(KEY_EMPTY),
            1025.. => self.faults.push(KEY_LONG),
            _ => {}
        }
        if length >= rest.len() {
            let out = length > rest.len();
            self.faults.push(if out { KEY_OUT } else { KEY_TO_END });
            return None;
        }
        let (key, rest) = rest.split_at(length);
        self.key = key;
        Some(rest)
    }

    fn read_value(&mut self, bytes: &'a [u8]) -> Option<()> {
        let length = self.length(bytes, VALUE_FORM)?;
        let rest = &bytes[size_of_length(bytes)..];
        if length > 65_535 {
            self.faults.push(VALUE_LONG);
        }
        if length > rest.len() {
            let further = length > rest.len() + 1;
            self.faults
                .push(if further { FURTHER_PAST } else { ONE_PAST });
        }
        self.value = rest.get(..length)?;
        Some(())
    }

    /// A length in any form; `not_shortest` is the fault of a longer one.
    fn length(&mut self, bytes: &[u8], not_shortest: &'static str) -> Option<usize> {
        let size = size_of_length(bytes);
        if size == 0 {
            self.faults.push(CUT);
            return None;
        }
        if size > 1 && bytes[size - 1] == 0 {
            self.faults.push(not_shortest);
        }
        let digits = bytes[..size].iter().rev();
        let digits = digits.map(|&byte| u64::from(byte & 0x7F));
        // As much as any length that is too long.
        let number = digits.fold(0, |number, digit| (number << 7 | digit).min(1 << 40));
        Some(number as usize)
    }
}

/// 0 if the bytes end before the length does.
fn size_of_length(bytes: &[u8]) -> usize {
    let last = bytes.iter().position(|&byte| byte < 0x80);
    last.map_or(0, |last| last + 1)
}
