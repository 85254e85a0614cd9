//! Two stores of one map under one settings block, made by different
//! histories, and one list of calls on both. Numbers, record bytes and delays
//! must be the same at each call before the first 10 in either.

mod answers;
mod build;
mod events;
mod list;
mod runs;
mod seen;

pub use events::planned;

use crate::compare::{Outcome, Pair};
use crate::live;
use crate::plan::Plan;
use crate::rng::Rng;
use crate::tally::Tally;
use answers::{Answer, Call};
use build::Scene;
use list::List;
use runs::{Alone, Run};

/// One case in so many has two stores of one map, beside what else it has.
const SHARE: u64 = 8;
/// How many calls are made behind the end of a list, to see their answers.
const BEHIND: usize = 8;

/// Each store by subject and reference, which are compared as well.
pub fn beside(seed: u64, case: u64, tally: &mut Tally) -> Outcome<()> {
    if !case.is_multiple_of(SHARE) {
        return Ok(());
    }
    let rng = &mut Rng::for_same_map(seed, case);
    let scene = Scene::random(rng);
    let mut other_tally = Tally::default();
    let [image, other_image] = scene.images();
    let runs = [
        Pair::new(scene.block(), image, tally),
        Pair::new(scene.block(), other_image, &mut other_tally),
    ];
    let events = compare(rng, &scene, runs)?;
    tally.add(other_tally);
    tally.meet(events);
    Ok(())
}

/// Each store by the subject alone: the two runs are held against each other
/// and against nothing else.
pub fn alone(seed: u64, case: u64, tally: &mut Tally) -> Outcome<()> {
    let rng = &mut Rng::for_same_map(seed, case);
    let scene = Scene::random(rng);
    let images = scene.images();
    let runs = images.map(|image| Alone::new(scene.block(), image));
    let events = compare(rng, &scene, runs)?;
    tally.meet(events);
    Ok(())
}

/// Answers what came up.
fn compare<R: Run>(rng: &mut Rng, scene: &Scene, runs: [R; 2]) -> Outcome<Vec<String>> {
    let stores = &scene.stores;
    let longer = stores[0].image.len().max(stores[1].image.len());
    let length = (120_000 / longer).clamp(6, 40);
    let list = List::new(rng, &stores[0].plan, &scene.keys, stores[0].map()).drawn(length);
    let mut two = Two {
        plans: [&stores[0].plan, &stores[1].plan],
        runs,
        events: seen::of_stores(stores),
    };
    two.have_one_map(two.images())?;
    two.answer(&list)?;
    Ok(two.events)
}

/// The two stores, and who answers the calls on them.
struct Two<'a, R> {
    plans: [&'a Plan; 2],
    runs: [R; 2],
    events: Vec<String>,
}

impl<R: Run> Two<'_, R> {
    fn images(&self) -> [&[u8]; 2] {
        [self.runs[0].image(), self.runs[1].image()]
    }

    /// The images that the last edit got.
    fn images_before(&self) -> [&[u8]; 2] {
        [self.runs[0].before(), self.runs[1].before()]
    }

    fn answer(&mut self, list: &[Call]) -> Outcome<()> {
        for (at, call) in list.iter().enumerate() {
            let answers = self.made(call)?;
            let full = [answers[0].number == 10, answers[1].number == 10];
            if full != [false, false] {
                self.events.push(events::first_10(call, full));
                self.have_one_map(self.images_before())?;
                return match full {
                    [true, true] => Ok(()),
                    _ => self.see_behind(&list[at + 1..]),
                };
            }
            self.agree(call, &answers)?;
        }
        self.events.push(events::without_10());
        self.have_one_map(self.images())
    }

    fn made(&mut self, call: &Call) -> Outcome<[Answer; 2]> {
        let [one, other] = &mut self.runs;
        Ok([call.made_on(one)?, call.made_on(other)?])
    }

    fn agree(&mut self, call: &Call, answers: &[Answer; 2]) -> Outcome<()> {
        let [one, other] = answers;
        if !one.agrees(other) {
            let (call, one, other) = (call.told(), one.told(), other.told());
            return Err(format!("{call} in two stores of one map: {one}; {other}"));
        }
        self.events.push(events::agreed(call.name(), one.number));
        let seen = match call.is_edit() {
            true if one.number == 0 => {
                let [before, after] = [self.images_before(), self.images()];
                let side = |side: usize| (self.plans[side], [before[side], after[side]]);
                seen::of_edit(call, [side(0), side(1)])
            }
            true => Vec::new(),
            false => seen::of_lookup(self.plans, answers),
        };
        self.events.extend(seen);
        Ok(())
    }

    /// Both are accepted and read as one map, with as many entries and marked
    /// chunks.
    fn have_one_map(&self, images: [&[u8]; 2]) -> Outcome<()> {
        let (number, counts) = self.runs[0].check_of(images[0])?;
        let (other_number, other_counts) = self.runs[1].check_of(images[1])?;
        if (number, other_number) != (0, 0) || counts[..2] != other_counts[..2] {
            return Err(format!(
                "two stores of one map: {number} {counts:?}, {other_number} {other_counts:?} by the check"
            ));
        }
        if live::map(self.plans[0], images[0]) != live::map(self.plans[1], images[1]) {
            return Err("two stores of one map: they read as different maps".to_string());
        }
        Ok(())
    }

    /// Behind a 10 in one store alone nothing is compared: the other has taken
    /// the record, and later answers may differ.
    fn see_behind(&mut self, list: &[Call]) -> Outcome<()> {
        for call in list.iter().take(BEHIND) {
            let [one, other] = self.made(call)?;
            if !one.agrees(&other) {
                self.events.push(events::later(call.name()));
            }
        }
        Ok(())
    }
}
