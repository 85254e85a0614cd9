//! The tiers that a history has sent home, and where they went from there.

use std::collections::BTreeMap;

use super::Links;

const JOINED: [&str; 2] = ["its own segment again", "another segment"];
const GROWN: &str = "a bulk added before a tier that went home";
const FULL_BEFORE: [&str; 2] = ["its own chain", "another segment's chain"];

fn joined(segment: &str) -> String {
    format!("a tier that went home joined the chain of {segment}")
}

/// A store answered 10 is done once a tier of some chain is free.
pub fn full_before(of_another: bool) -> String {
    let chain = FULL_BEFORE[usize::from(of_another)];
    format!("a store answered 10 and, after a removal sent home a tier of {chain}, 0")
}

pub(super) fn planned() -> Vec<String> {
    let full_before = [false, true].map(full_before).into_iter();
    let joined = JOINED.map(joined).into_iter();
    full_before
        .chain(joined)
        .chain([GROWN.to_string()])
        .collect()
}

/// By tier index, the segment whose chain it left.
#[derive(Default)]
pub struct WentHome(BTreeMap<usize, usize>);

impl WentHome {
    /// A bulk was added where this was the first free tier. Answers what came
    /// up, as does the next.
    pub fn grown(&self, first_free: usize) -> Option<String> {
        self.0.contains_key(&first_free).then(|| GROWN.to_string())
    }

    /// An edit was done.
    pub fn follow(&mut self, links: &Links) -> Option<String> {
        let segment = links.edit.segment;
        if let Some(tier) = links.sent_home() {
            self.0.insert(tier, segment);
        }
        let of_another = self.0.remove(&links.joined()?)? != segment;
        Some(joined(JOINED[usize::from(of_another)]))
    }
}
