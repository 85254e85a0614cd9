//! The quick ask for a pair: its numbers and their order.

use super::quick::built_to_p3;
use super::worked_store::{block, store_x, with};
use crate::{quick_delay, store};

#[test]
fn a_quick_ask_in_order() {
    let ask = |image: &[u8], a, b| quick_delay(&block(), image, a, b);
    let good = built_to_p3();
    assert_eq!(ask(&good, 1, 2), (0, 16));
    assert_eq!(ask(&good, 2, 1), (0, -16));
    assert_eq!(ask(&good, 1, 3), (1, 0));
    let bad_frame = with(good.clone(), &[(25, &[0])]);
    let broken = with(good.clone(), &[(100, &[0x11])]);
    for (a, b) in [(0, 1), (1, 1), (33, 1), (257, 2), (2, u32::MAX)] {
        assert_eq!(quick_delay(&block()[1..], &good, a, b), (2, 0));
        assert_eq!(ask(&bad_frame, a, b), (4, 0));
        assert_eq!(ask(&good, a, b), (11, 0));
        assert_eq!(ask(&broken, a, b), (11, 0));
    }
    assert_eq!(ask(&bad_frame, 1, 2), (4, 0));
    assert_eq!(ask(&broken, 1, 2), (18, 0));
    let unmarked = with(good, &[(224, &[0])]);
    assert_eq!(ask(&unmarked, 2, 1), (0, -16));
}

#[test]
fn a_quick_ask_of_no_delay() {
    let ask = |image: &[u8], a, b| quick_delay(&block(), image, a, b);
    for record in [&[][..], &[1, 2, 3], &[1, 2, 3, 4, 5], &[0, 0, 0, 0x80]] {
        let mut image = store_x();
        assert_eq!(store(&block(), &mut image, &[1, 2], record), 0);
        assert_eq!(ask(&image, 1, 2), (12, 0));
        assert_eq!(ask(&image, 2, 1), (12, 0));
        assert_eq!(ask(&image, 1, 3), (1, 0));
        // What the walk meets comes first.
        let broken = with(image, &[(232, &[0])]);
        assert_eq!(ask(&broken, 1, 2), (18, 0));
    }
    let mut image = store_x();
    let least = (i32::MIN + 1).to_le_bytes();
    assert_eq!(store(&block(), &mut image, &[1, 2], &least), 0);
    assert_eq!(ask(&image, 1, 2), (0, i32::MIN + 1));
    assert_eq!(ask(&image, 2, 1), (0, i32::MAX));
}
