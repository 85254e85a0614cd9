//! One case: an image of one kind, and calls on it.

mod limits;

use crate::blocks;
use crate::bulks::Course;
use crate::calls::all_calls;
use crate::compare::{self, Outcome, Pair};
use crate::damage::{DAMAGES, Scene, Verdict};
use crate::defects::DEFECTS;
use crate::draw;
use crate::empty_tiers::WentHome;
use crate::history::History;
use crate::model::Model;
use crate::plan::Plan;
use crate::quick;
use crate::rng::Rng;
use crate::settings::Size;
use crate::tally::Tally;

pub fn run(seed: u64, case: u64, tally: &mut Tally) -> Outcome<()> {
    let rng = &mut Rng::for_case(seed, case);
    hashes(rng, tally)?;
    match rng.below(1000) {
        0..330 => history(rng, tally),
        330..740 => damaged(rng, tally),
        740..790 => quick::walked(rng, tally),
        790..800 => quick::framed(rng, tally),
        800..900 => bad_block(rng, tally),
        900..970 => flipped(rng, tally),
        970..995 => raw(rng, tally),
        995..998 => limits::most_tiers(rng, tally),
        _ => limits::longest_image(rng, tally),
    }
}

fn hashes(rng: &mut Rng, tally: &mut Tally) -> Outcome<()> {
    let most = if rng.percent(2) { 5000 } else { 80 };
    let length = rng.below(most);
    compare::xxh64(&rng.bytes(length), tally)
}

/// Plan, keys and a model of random contents.
fn scene(rng: &mut Rng) -> (Plan, Vec<Vec<u8>>, Model) {
    let size = Size::random(rng);
    let mut plan = Plan::random(rng, size);
    if rng.percent(20) {
        // The size of a pair's entry.
        plan.limit_entries(8, rng.percent(50));
    }
    scene_of(rng, plan)
}

pub fn scene_of(rng: &mut Rng, plan: Plan) -> (Plan, Vec<Vec<u8>>, Model) {
    let count = match rng.below(10) {
        0..6 => rng.between(2, 12),
        6..9 => rng.between(8, 40),
        _ => rng.between(30, 200),
    };
    let keys = match rng.percent(50) {
        true => draw::keys_with_pairs(rng, &plan, count),
        false => draw::keys(rng, &plan, count),
    };
    let model = Model::random(rng, &plan, &keys);
    (plan, keys, model)
}

fn history(rng: &mut Rng, tally: &mut Tally) -> Outcome<()> {
    let (plan, keys, model) = match rng.percent(15) {
        true => {
            let plan = Plan::random(rng, Size::Narrow);
            scene_of(rng, plan)
        }
        false => scene(rng),
    };
    let grows = *rng.pick(&[0, 2, 8]);
    history_on(rng, tally, plan, &keys, model, grows)
}

fn history_on(
    rng: &mut Rng,
    tally: &mut Tally,
    plan: Plan,
    keys: &[Vec<u8>],
    model: Model,
    grows: usize,
) -> Outcome<()> {
    let image = model.image(rng);
    let steps = (1_500_000 / image.len()).clamp(8, 160);
    let tight = *rng.pick(&[0, 30, 50, 100]);
    let pair = Pair::new(plan.block(), image, tally);
    History {
        rng,
        plan,
        keys,
        records: model.records,
        tight,
        grows,
        course: Course::default(),
        went_home: WentHome::default(),
        pair,
    }
    .run(steps)
}

/// One to three faults, of which the lowest number is told where it is sure.
fn damaged(rng: &mut Rng, tally: &mut Tally) -> Outcome<()> {
    let (plan, keys, mut model) = scene(rng);
    let mut faults: Vec<(&'static str, Verdict)> = Vec::new();
    if rng.percent(45) {
        faults.extend(defect(rng, &mut model));
    }
    let mut image = model.image(rng);
    let more = if faults.is_empty() || rng.percent(25) {
        rng.between(1, 2)
    } else {
        0
    };
    for _ in 0..more {
        let (name, damage) = *rng.pick(&DAMAGES);
        let scene = &mut Scene {
            rng,
            model: &model,
            image: &mut image,
        };
        if scene.image.len() < plan.store_size() {
            break;
        }
        faults.extend(damage(scene).map(|verdict| (name, verdict)));
    }
    let verdict = lowest(&faults);
    for (name, _) in &faults {
        *tally.faults.entry(name).or_default() += 1;
    }
    let mut pair = Pair::new(plan.block(), image, tally);
    let result = all_calls(rng, &plan, &keys, &mut pair, verdict);
    result.map_err(|difference| format!("{difference} (faults: {faults:?})"))
}

fn defect(rng: &mut Rng, model: &mut Model) -> Option<(&'static str, Verdict)> {
    for _ in 0..4 {
        let (name, defect) = *rng.pick(&DEFECTS);
        let untouched = (
            model.chains.clone(),
            model.free.clone(),
            model.tiers.clone(),
        );
        if let Some(number) = defect(rng, model) {
            return Some((name, Verdict::Is(number)));
        }
        (model.chains, model.free, model.tiers) = untouched;
    }
    None
}

/// Faults of different numbers stand in different fields, so that the lowest
/// decides; two of one number might undo each other.
fn lowest(faults: &[(&str, Verdict)]) -> Verdict {
    let mut lowest = 0;
    for &(_, verdict) in faults {
        match verdict {
            Verdict::Is(0) => {}
            Verdict::Is(number) if number == lowest => return Verdict::Unknown,
            Verdict::Is(number) if lowest == 0 || number < lowest => lowest = number,
            Verdict::Is(_) => {}
            Verdict::Unknown => return Verdict::Unknown,
        }
    }
    Verdict::Is(lowest)
}

fn bad_block(rng: &mut Rng, tally: &mut Tally) -> Outcome<()> {
    let (plan, keys, model) = scene(rng);
    let mut image = model.image(rng);
    if rng.percent(20) {
        image.truncate(rng.below(100));
    }
    let (block, verdict) = match rng.below(10) {
        0..2 => (blocks::misshapen(rng, &plan), Verdict::Is(2)),
        2..8 => (blocks::with_bad_field(rng, &plan), Verdict::Is(3)),
        _ => (blocks::altered(rng, &plan), Verdict::Unknown),
    };
    let told = format!("{block:?}");
    let mut pair = Pair::new(block, image, tally);
    let result = all_calls(rng, &plan, &keys, &mut pair, verdict);
    result.map_err(|difference| format!("{difference} (block: {told})"))
}

/// Random bits anywhere, more often in the fields than in the chunks.
fn flipped(rng: &mut Rng, tally: &mut Tally) -> Outcome<()> {
    let (plan, keys, model) = scene(rng);
    let mut image = model.image(rng);
    for _ in 0..rng.between(1, 6) {
        let tier = rng.between(1, plan.tiers());
        let (start, end) = match rng.below(5) {
            0 => (0, image.len()),
            1 => (plan.global_state, plan.global_state + 33),
            2 => (plan.headers, plan.header(plan.segments)),
            3 => (plan.tier(tier), plan.slot(tier, plan.slots)),
            _ => (plan.counters(tier), plan.chunk(tier, 1)),
        };
        image[rng.between(start, end - 1)] ^= 1 << rng.below(8);
    }
    let mut pair = Pair::new(plan.block(), image, tally);
    all_calls(rng, &plan, &keys, &mut pair, Verdict::Unknown)
}

/// Short random images, and random blocks.
fn raw(rng: &mut Rng, tally: &mut Tally) -> Outcome<()> {
    let plan = Plan::random(rng, Size::Tiny);
    let block = match rng.below(4) {
        0 => {
            let length = rng.below(90);
            rng.bytes(length)
        }
        1 => [vec![0, 69, 1], rng.bytes(68)].concat(),
        _ => plan.block(),
    };
    let length = rng.below(200);
    let image = rng.bytes(length);
    let keys = draw::keys(rng, &plan, 4);
    let mut pair = Pair::new(block, image, tally);
    all_calls(rng, &plan, &keys, &mut pair, Verdict::Unknown)
}
