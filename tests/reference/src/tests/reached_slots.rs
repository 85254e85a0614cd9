//! A full slot is reached from its start, over the wrap too, if no slot
//! between is empty.

use super::chain_builder::{Key, Shape, shape};

/// Two keys for each start slot.
fn keys(shape: Shape) -> Vec<[Key; 2]> {
    let of_start = |start| {
        let mut keys = shape.keys().filter(move |key| shape.start(key) == start);
        [keys.next().unwrap(), keys.next().unwrap()]
    };
    (0..shape.slots).map(of_start).collect()
}

fn is_full(full: u32, place: usize) -> bool {
    full >> place & 1 == 1
}

/// In each set of full slots each of them has each start.
#[test]
fn every_slot_from_every_start() {
    let shape = shape(8, 20);
    let keys = keys(shape);
    for full in 1..255 {
        for place in (0..8).filter(|place| is_full(full, *place)) {
            from_every_start(shape, &keys, full, place);
        }
    }
}

/// The other slots have their own start.
#[track_caller]
fn from_every_start(shape: Shape, keys: &[[Key; 2]], full: u32, place: usize) {
    for start in 0..8 {
        let others = (0..8).filter(|&other| is_full(full, other) && other != place);
        let mut tier = vec![(place, keys[start][1].clone())];
        tier.extend(others.map(|other| (other, keys[other][0].clone())));
        let mut steps = (start..8).chain(0..start);
        let met = steps.find(|&step| step == place || !is_full(full, step));
        shape.checks(&vec![tier], if met == Some(place) { 0 } else { 6 });
    }
}

/// All start at the last slot, and together they leave one slot empty.
#[test]
fn a_run_over_the_wrap_up_to_the_one_empty_slot() {
    let shape = shape(64, 20);
    let from_last = shape.keys().filter(|key| shape.start(key) == 63);
    let tier = shape.placed(from_last.take(63));
    shape.checks(&vec![tier.clone()], 0);
    shape.checks(&vec![tier.clone(), vec![]], 0);
    for missing in 0..62 {
        let mut tier = tier.clone();
        tier.remove(missing);
        shape.checks(&vec![tier.clone()], 6);
        shape.checks(&vec![vec![], tier], 6);
    }
    let full = [tier, vec![(62, keys(shape)[62][0].clone())]].concat();
    shape.checks(&vec![full], 6);
}
