//! What two stores of one map must have come upon in a whole run.

use super::answers::Call;

pub(super) const STORES: [&str; 12] = [
    "of different lengths",
    "with different numbers of bulks",
    "with headers at different offsets",
    "with chains of different lengths for one segment",
    "with different numbers of free tiers",
    "with a chained extra tier without entries in one alone",
    "with a lagging low mark in one alone",
    "with the same entries listed in another order",
    "both placed anywhere",
    "the first placed anywhere, the second made by calls",
    "the first made by calls, the second placed anywhere",
    "both made by calls",
];
pub(super) const FOUND: [&str; 4] = [
    "at another offset",
    "in another tier",
    "in a main tier in the one and in an extra tier in the other",
    "in another slot",
];
pub(super) const ABSENT: [&str; 2] = ["in another tier", "in another slot"];
pub(super) const SIZES: [&str; 4] = [
    "a new key",
    "a replacement of fewer chunks",
    "a replacement of as many chunks",
    "a replacement of more chunks",
];
pub(super) const EDITS: [&str; 4] = [
    "a removal sent a tier home",
    "a replacement sent a tier home",
    "a replacement went to another tier",
    "a tier joined a chain",
];

/// The numbers on which both runs must have agreed, by call.
const AGREED: [(&str, &[u32]); 8] = [
    ("lookup", &[0, 1, 8]),
    ("quick_lookup", &[0, 1, 8]),
    ("store", &[0, 8, 9]),
    ("store_tight", &[0, 8, 9]),
    ("remove", &[0, 1, 8]),
    ("delay", &[0, 1, 11, 12]),
    ("quick_delay", &[0, 1, 11, 12]),
    ("set_delay", &[0, 9, 11, 12]),
];
/// The calls that put a record under a key: those that may be answered 10.
const PUTS: [&str; 3] = ["store", "store_tight", "set_delay"];
const FIRST_10: [&str; 3] = [
    "in the first store alone",
    "in the second store alone",
    "in both stores",
];
const WITHOUT_10: &str = "a list of calls on two stores of one map without a 10";

pub(super) fn stores(event: &str) -> String {
    format!("two stores of one map {event}")
}

pub(super) fn found(event: &str) -> String {
    format!("a record found in two stores of one map {event}")
}

pub(super) fn absent(event: &str) -> String {
    format!("a search for an absent key ended in two stores of one map {event}")
}

pub(super) fn put(call: &str, size: &str) -> String {
    format!("{size} by {call} in two stores of one map")
}

pub(super) fn edited(event: &str) -> String {
    format!("{event} in one alone of two stores of one map")
}

pub(super) fn agreed(call: &str, number: u32) -> String {
    format!("{call} answered {number} in two stores of one map")
}

/// The end of a list: a call to which one or both runs answered 10.
pub(super) fn first_10(call: &Call, full: [bool; 2]) -> String {
    let runs = match full {
        [true, true] => 2,
        [true, false] => 0,
        _ => 1,
    };
    ended(call.name(), FIRST_10[runs])
}

fn ended(call: &str, runs: &str) -> String {
    format!("the first 10 of two stores of one map by {call} {runs}")
}

pub(super) fn without_10() -> String {
    WITHOUT_10.to_string()
}

/// A call after the end, where nothing is compared any more.
pub(super) fn later(call: &str) -> String {
    format!("a later {call} answered otherwise after a 10 in one alone of two stores of one map")
}

pub fn planned() -> Vec<String> {
    let numbers = AGREED.into_iter().flat_map(|(call, numbers)| {
        let numbers = numbers.iter();
        numbers.map(move |&number| agreed(call, number))
    });
    let puts = PUTS.into_iter();
    let puts = puts.flat_map(|call| SIZES.map(|size| put(call, size)));
    let ends = PUTS.into_iter();
    let ends = ends.flat_map(|call| FIRST_10.map(|runs| ended(call, runs)));
    STORES
        .map(stores)
        .into_iter()
        .chain(FOUND.map(found))
        .chain(ABSENT.map(absent))
        .chain(numbers)
        .chain(puts)
        .chain(EDITS.map(edited))
        .chain(ends)
        .chain([without_10()])
        .chain(AGREED.map(|(call, _)| later(call)))
        .collect()
}
