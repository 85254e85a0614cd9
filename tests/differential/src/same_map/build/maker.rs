//! A store made by calls on an image without entries: the records in any
//! order, some by way of another length, with other keys stored and removed
//! between, and bulks added.

use super::Store;
use crate::draw;
use crate::kinds::Kind;
use crate::model::Model;
use crate::plan::Plan;
use crate::rng::Rng;

pub struct Maker<'a> {
    rng: &'a mut Rng,
    plan: Plan,
    block: Vec<u8>,
    image: Vec<u8>,
    /// Keys that are stored for a while, and none of the records' keys.
    others: Vec<Vec<u8>>,
}

impl<'a> Maker<'a> {
    /// With some tiers chained that have no entry.
    pub fn on(rng: &'a mut Rng, plan: Plan) -> Maker<'a> {
        let mut model = Model::empty(rng, &plan);
        for _ in 0..*rng.pick(&[0, 0, 1, 2]) {
            let segment = rng.below(plan.segments);
            model.grow(segment);
        }
        let image = model.image(rng);
        Maker {
            rng,
            block: plan.block(),
            plan,
            image,
            others: Vec::new(),
        }
    }

    pub fn made(mut self, records: &[(Vec<u8>, Vec<u8>)]) -> Store {
        for (key, record) in records {
            self.edit_between(records);
            if self.rng.percent(25) {
                let other = draw::offered_value(self.rng, &self.plan, key.len());
                self.store(key, &other);
            }
            self.store(key, record);
        }
        while !self.others.is_empty() {
            self.remove_other();
        }
        for (key, record) in records {
            if self.rng.percent(15) {
                self.store(key, record);
            }
        }
        Store {
            plan: self.plan,
            image: self.image,
            by_calls: true,
        }
    }

    fn store(&mut self, key: &[u8], record: &[u8]) {
        let (store, _) = self.rng.pick(&[Kind::OnTheSpot, Kind::Tight]).calls();
        store(&self.block, &mut self.image, key, record);
    }

    /// Something that the map does not show in the end.
    fn edit_between(&mut self, records: &[(Vec<u8>, Vec<u8>)]) {
        match self.rng.below(10) {
            0..3 => self.store_other(records),
            3..5 if !self.others.is_empty() => self.remove_other(),
            5 if self.plan.lacks(self.image.len()) == (0, 0) => {
                reference::grow(&self.block, &mut self.image);
                self.plan = self.plan.with_one_more_bulk();
            }
            _ => {}
        }
    }

    /// In the segment of one of the records.
    fn store_other(&mut self, records: &[(Vec<u8>, Vec<u8>)]) {
        let near = &self.rng.pick(records).0;
        let segment = self.plan.parts(near).0;
        let key = draw::key_in_segment(self.rng, &self.plan, segment);
        let is_other = |key: &Vec<u8>| records.iter().all(|(other, _)| other != key);
        if let Some(key) = key.filter(is_other) {
            let record = draw::offered_value(self.rng, &self.plan, key.len());
            self.store(&key, &record);
            self.others.push(key);
        }
    }

    fn remove_other(&mut self) {
        let any = self.rng.below(self.others.len());
        let key = self.others.swap_remove(any);
        reference::remove(&self.block, &mut self.image, &key);
    }
}
