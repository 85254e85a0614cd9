//! The worked store, the run-only cases, and cases of our own.

mod chain_builder;
mod empty_tiers;
mod empty_tiers_settings;
mod empty_tiers_stores;
mod full_chains;
mod grow;
mod grow_settings;
mod hash_vectors;
mod keys_once;
mod low_mark;
mod on_the_spot;
mod one_hash;
mod pairs;
mod quick;
mod quick_asks;
mod quick_walk;
mod reached_slots;
mod same_map;
mod search_end;
mod store_kinds;
mod worked_store;

use crate::leb128;

#[test]
fn lengths_are_written_shortest() {
    let cases: [(usize, &[u8]); 6] = [
        (0, &[0x00]),
        (127, &[0x7F]),
        (128, &[0x80, 0x01]),
        (16_383, &[0xFF, 0x7F]),
        (16_384, &[0x80, 0x80, 0x01]),
        (65_535, &[0xFF, 0xFF, 0x03]),
    ];
    for (number, bytes) in cases {
        let mut written = [0xAA; 4];
        assert_eq!(leb128::write(&mut written, number), bytes.len());
        assert_eq!(&written[..bytes.len()], bytes);
        assert_eq!(written[bytes.len()], 0xAA);
        assert_eq!(leb128::size(number), bytes.len());
        assert_eq!(leb128::read(bytes), Some((number, bytes.len())));
        assert_eq!(leb128::read(&bytes[..bytes.len() - 1]), None);
    }
}

#[test]
fn longer_forms_are_not_read() {
    let cases: [&[u8]; 5] = [
        &[0x80, 0x00],
        &[0xFF, 0x00],
        &[0x80, 0x80, 0x00],
        &[0x80, 0x80, 0x80, 0x01],
        &[],
    ];
    for bytes in cases {
        assert_eq!(leb128::read(bytes), None, "{bytes:02X?}");
    }
}
