//! Two stores of one map under one settings block, made by different
//! histories. The subject has no part in it, so that a fault of its own can
//! only show in the list of calls.

mod maker;

use std::collections::BTreeMap;

use crate::draw;
use crate::live;
use crate::low_marks;
use crate::model::Model;
use crate::oracle::Oracle;
use crate::plan::Plan;
use crate::render::put;
use crate::rng::Rng;
use crate::settings::Size;
use maker::Maker;

type Records = BTreeMap<Vec<u8>, Vec<u8>>;

/// A store gets bulks up to so many bytes.
const ENOUGH_BYTES: usize = 1 << 19;

pub struct Store {
    pub plan: Plan,
    pub image: Vec<u8>,
    /// Made by calls, or placed anywhere.
    pub by_calls: bool,
}

pub struct Scene {
    pub keys: Vec<Vec<u8>>,
    pub stores: [Store; 2],
}

impl Scene {
    pub fn random(rng: &mut Rng) -> Scene {
        let plan = plan(rng);
        let keys = keys(rng, &plan);
        let share = rng.between(30, 100);
        let mut wished = Vec::new();
        for key in &keys {
            let value = draw::fitting_value(rng, &plan, key.len());
            let value = value.filter(|_| rng.percent(share));
            wished.extend(value.map(|value| (key.clone(), value)));
        }
        let mut stores = [0, 1].map(|_| Store::random(rng, &plan, wished.clone()));
        agree(&mut stores);
        for store in &mut stores {
            store.lag(rng);
        }
        Scene { keys, stores }
    }

    pub fn block(&self) -> Vec<u8> {
        self.stores[0].plan.block()
    }

    pub fn images(&self) -> [Vec<u8>; 2] {
        [self.stores[0].image.clone(), self.stores[1].image.clone()]
    }
}

/// Mostly small tiers, so that places differ and stores get full.
fn plan(rng: &mut Rng) -> Plan {
    let size = match rng.below(100) {
        0..55 => Size::Narrow,
        55..90 => Size::Tiny,
        90..99 => Size::Small,
        _ => Size::Roomy,
    };
    let mut plan = Plan::random(rng, size);
    if rng.percent(15) {
        // The size of a pair's entry.
        plan.limit_entries(8, rng.percent(50));
    }
    plan
}

fn keys(rng: &mut Rng, plan: &Plan) -> Vec<Vec<u8>> {
    let count = rng.between(3, 16);
    match rng.percent(60) {
        true => draw::keys_with_pairs(rng, plan, count),
        false => draw::keys(rng, plan, count),
    }
}

impl Plan {
    /// The same settings, and other numbers of the image.
    fn with_other_frame(&self, rng: &mut Rng) -> Plan {
        let mut plan = self.clone();
        plan.bulks = match rng.below(4) {
            0 => self.bulks.min(4),
            _ => rng.below(4),
        };
        if rng.percent(50) {
            plan.headers = plan.global_state + 33 + rng.below(60);
        }
        let room = ENOUGH_BYTES.saturating_sub(plan.bulks_start()) / plan.bulk_size;
        plan.bulks = plan.bulks.min(room);
        plan.bytes_after = match rng.below(4) {
            0 if plan.bulks < room => plan.bulk_size,
            1 => rng.below(60),
            _ => 0,
        };
        plan
    }
}

impl Store {
    /// Some of the records may find no room.
    fn random(rng: &mut Rng, plan: &Plan, mut records: Vec<(Vec<u8>, Vec<u8>)>) -> Store {
        let plan = plan.with_other_frame(rng);
        rng.shuffle(&mut records);
        match rng.percent(65) {
            true => Maker::on(rng, plan).made(&records),
            false => Store::placed(rng, plan, &records),
        }
    }

    /// As no history may have left it.
    fn placed(rng: &mut Rng, plan: Plan, records: &[(Vec<u8>, Vec<u8>)]) -> Store {
        let mut model = Model::empty(rng, &plan);
        for (key, record) in records {
            let segment = plan.parts(key).0;
            if rng.percent(20) {
                model.grow(segment);
            }
            let mut tiers = model.chains[segment].clone();
            rng.shuffle(&mut tiers);
            let mut places = tiers.into_iter();
            places.find(|&tier| {
                let draft = model.draft(key, record);
                model.place(rng, tier, draft, 1).is_some()
            });
        }
        let image = model.image(rng);
        Store {
            plan,
            image,
            by_calls: false,
        }
    }

    pub fn map(&self) -> Records {
        let map = live::map(&self.plan, &self.image).into_iter();
        map.map(|(key, record)| (key.into(), record.into()))
            .collect()
    }

    /// Removes what another map does not have.
    fn keep(&mut self, other: &Records) {
        for (key, record) in self.map() {
            if other.get(&key) != Some(&record) {
                reference::remove(&self.plan.block(), &mut self.image, &key);
            }
        }
    }

    /// Some low marks lag where they may.
    fn lag(&mut self, rng: &mut Rng) {
        let plan = &self.plan;
        for segment in 0..plan.segments {
            let image = &self.image;
            for tier in (Oracle { plan, image }).chain(segment) {
                let image = &self.image;
                let lowest = Oracle { plan, image }.lowest_clear(tier);
                let mark = low_marks::drawn(rng, lowest, plan.chunks);
                let (at, width) = plan.lowest_free_field(tier);
                put(&mut self.image, at, width, mark as u64);
            }
        }
    }
}

/// Leaves in both what both have.
fn agree([one, other]: &mut [Store; 2]) {
    one.keep(&other.map());
    other.keep(&one.map());
}
