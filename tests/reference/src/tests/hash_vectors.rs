//! XXH64 against Debian's `xxhsum -H64`, version 0.8.1.

use crate::xxh64;

#[test]
fn of_texts() {
    let cases: [(&str, u64); 3] = [
        ("", 0xef46db3751d8e999),
        ("a", 0xd24ec4f1a98c6e5b),
        ("abc", 0x44bc2cf5ad770999),
    ];
    for (text, hash) in cases {
        assert_eq!(xxh64(text.as_bytes()), hash, "{text:?}");
    }
}

/// Lengths around every step of the algorithm: 4, 8 and 32 bytes.
#[test]
fn of_a_pattern() {
    let cases: [(usize, u64); 25] = [
        (1, 0x8a4127811b21e730),
        (3, 0xb6e6c910c2fd373a),
        (4, 0x22eda2cf6af4c124),
        (5, 0x1da48e4b4cafab76),
        (7, 0x34084d91a233a751),
        (8, 0xc6f1803a5e0b3222),
        (9, 0x9e8adf2a0ccdb6da),
        (12, 0x9178b724dce384c0),
        (15, 0x514c6f58d37ce6f1),
        (16, 0xafe8f989a0735a8e),
        (23, 0xc9316b87f4db1c9f),
        (31, 0x6ab1c40e29f50073),
        (32, 0x5a0756fbe9ecd3d1),
        (33, 0xdc50cdc37bb9c183),
        (39, 0xe6b392c5985d77ab),
        (40, 0x7899cacb89a78430),
        (63, 0x10dd94885c71894a),
        (64, 0x90083da9cdb9d795),
        (65, 0x38824dea10bf4e5d),
        (100, 0xd248bfc5208b0b16),
        (128, 0x85cbe89fe5a0317d),
        (255, 0x5da8139d7acf3995),
        (1000, 0x87345ddb5a6099bc),
        (1024, 0x9da112b3bfe7db48),
        (4099, 0x58da0423ae7fed50),
    ];
    for (length, hash) in cases {
        let bytes: Vec<u8> = (0..length)
            .map(|i| (i * 7 + (i >> 8) * 13 + 1) as u8)
            .collect();
        assert_eq!(xxh64(&bytes), hash, "{length} bytes");
    }
}
