//! The lengths on both sides of each at which LEB128 takes a byte more, the
//! shortest and the longest: a whole run must store each.

const KEYS: [usize; 4] = [1, 127, 128, 1024];
const RECORDS: [usize; 6] = [0, 127, 128, 16_383, 16_384, 65_535];

fn key_of(length: usize) -> String {
    format!("a key of {length} bytes stored")
}

fn record_of(length: usize) -> String {
    format!("a record of {length} bytes stored")
}

pub fn planned() -> Vec<String> {
    let keys = KEYS.into_iter().map(key_of);
    keys.chain(RECORDS.into_iter().map(record_of)).collect()
}

/// What a store of such a key and record brings of that.
pub fn brought(key: usize, record: usize) -> Vec<String> {
    let keys = KEYS.into_iter().filter(|&length| length == key);
    let records = RECORDS.into_iter().filter(|&length| length == record);
    keys.map(key_of).chain(records.map(record_of)).collect()
}
