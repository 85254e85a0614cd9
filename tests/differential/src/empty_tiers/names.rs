//! What edits that empty a tier must have come upon.

use crate::kinds::{Call, Kind};

pub(super) const PLACES: [&str; 6] = [
    "after the main tier, the last of its chain",
    "after the main tier, with one tier behind it",
    "after the main tier, with more tiers behind it",
    "after an extra tier, the last of its chain",
    "after an extra tier, with one tier behind it",
    "after an extra tier, with more tiers behind it",
];
pub(super) const REMOVED: [&str; 5] = [
    "with no tier free",
    "with tiers free",
    "next to a tier whose low mark lags",
    "next to a tier that was empty before",
    "before a tier whose order was 256",
];
pub(super) const MAIN: [&str; 2] = ["alone in its chain", "with tiers behind it"];
const CALLS: [&str; 4] = [
    "the default store",
    "a tight store of as many chunks",
    "a tight store of another number of chunks",
    "a set of a delay",
];
const ON_THE_SPOT: [&str; 2] = [CALLS[0], CALLS[3]];
pub(super) const REPLACED: [&str; 6] = [
    "sent its tier home with no tier free",
    "sent its tier home with tiers free",
    "sent its tier home with tiers behind it",
    "came back to the tier that it emptied with no tier free",
    "came back to the tier that it emptied with tiers free",
    "came back to the tier that it emptied with tiers behind it",
];
pub(super) const WENT: [&str; 5] = [
    "the main tier just before it",
    "an extra tier just before it",
    "the main tier farther before it",
    "an extra tier farther before it",
    "a tier that was empty before",
];
const ABSENT: &str = "by a removal of an absent key";
pub(super) const PASSED: [&str; 5] = [
    "by a removal in another tier",
    "by a removal that sent another tier home",
    "by a store in an earlier tier",
    "by a replacement on the spot in another tier",
    "by a replacement that sent another tier home",
];
const AGAIN: [&str; 2] = ["go to a later tier", "make that tier the last of its chain"];

pub(super) fn removed(event: &str) -> String {
    format!("a removal sent home a tier {event}")
}

pub(super) fn main_emptied(event: &str) -> String {
    format!("a removal emptied a main tier {event}")
}

pub(super) fn replaced(call: &str, event: &str) -> String {
    format!("a replacement by {call} {event}")
}

pub(super) fn went(event: &str) -> String {
    format!("a replacement that sent its tier home went to {event}")
}

pub(super) fn kept(call: &str) -> String {
    format!(
        "a replacement on the spot by {call} kept a tier with no other entry though an earlier tier has room"
    )
}

pub(super) fn passed(event: &str) -> String {
    format!("a tier that was empty before left chained {event}")
}

/// What is counted where a removal answers 1.
pub fn passed_by() -> String {
    passed(ABSENT)
}

/// Where a removal and a store put what a tight replacement puts back into the
/// tier that it emptied.
#[derive(Clone, Copy)]
pub enum Again {
    LaterTier,
    LastTier,
}

impl Again {
    pub fn name(self) -> String {
        let event = AGAIN[self as usize];
        format!("a tight replacement came back where a removal and a store {event}")
    }
}

/// The name of a call that replaces a record.
pub(super) fn call_name(call: Call, as_many: bool) -> &'static str {
    match (call, as_many) {
        (Call::Store(Kind::OnTheSpot), _) => CALLS[0],
        (Call::Store(Kind::Tight), true) => CALLS[1],
        (Call::Store(Kind::Tight), false) => CALLS[2],
        (Call::SetDelay, _) => CALLS[3],
    }
}

pub fn planned() -> Vec<String> {
    let calls = CALLS.into_iter();
    let replaced = calls.flat_map(|call| REPLACED.map(|event| replaced(call, event)));
    let removed = PLACES.into_iter().chain(REMOVED).map(removed);
    removed
        .chain(MAIN.map(main_emptied))
        .chain(replaced)
        .chain(WENT.map(went))
        .chain(ON_THE_SPOT.map(kept))
        .chain([passed_by()])
        .chain(PASSED.map(passed))
        .chain([Again::LaterTier, Again::LastTier].map(Again::name))
        .chain(super::went_home::planned())
        .collect()
}
