//! Settings blocks that break a rule.

use crate::plan::{Plan, block_of};
use crate::rng::Rng;

/// A block whose shape is wrong, whatever its fields say: number 2.
pub fn misshapen(rng: &mut Rng, plan: &Plan) -> Vec<u8> {
    let mut block = plan.block();
    if rng.percent(30) {
        block = with_bad_field(rng, plan);
    }
    match rng.below(6) {
        0 => block.truncate(rng.below(71)),
        1 => block.push(0),
        2 => block.extend(rng.bytes(69)),
        3 => block[rng.below(2)] ^= 1 << rng.below(8),
        4 => block[2] = *rng.pick(&[0, 2, 0x81]),
        _ => block[2] ^= 1 << rng.below(8),
    }
    block
}

/// A block with one field out of its rule: number 3.
pub fn with_bad_field(rng: &mut Rng, plan: &Plan) -> Vec<u8> {
    let field = rng.below(17);
    let mut fields = plan.fields();
    fields[field] = match rng.below(10) {
        0 => (1 << 24) + 1,
        1 => rng.between((1 << 24) + 1, u32::MAX as usize),
        2 => u32::MAX as usize,
        _ => {
            let values = bad_values(field + 1, plan);
            *rng.pick(&values)
        }
    };
    block_of(&fields)
}

fn bad_values(field: usize, plan: &Plan) -> Vec<usize> {
    let chunk_end =
        plan.lookup_size + 64 + plan.list_size + plan.space_offset + plan.chunks * plan.chunk_size;
    match field {
        1 => vec![1, 32, 63, 65, 65_600, 131_072, plan.global_state + 8],
        2 => vec![0, 3, 5, 6, 255, 257, 512],
        3 => vec![0, 31, 257, 8],
        4 => vec![0, 1, 2, 5, 6, 7, 12, 16],
        5 => vec![0, 1, 2, 3, 6, 12, 4095, 8192],
        6 => vec![0, 57, 64, 8 * plan.slot_size - plan.chunk_bits + 1],
        7 => {
            let mut values = vec![0, 33, 64, 8 * plan.slot_size - plan.key_bits + 1];
            let narrow = (1..32).filter(|bits| 1 << bits < plan.chunks);
            values.extend(narrow);
            values
        }
        8 => vec![0, plan.slots * plan.slot_size - 1],
        9 => vec![plan.chunks.div_ceil(8) - 1],
        10 => vec![4097, 8192],
        11 => vec![0, 4097, 8192, (1 << plan.chunk_bits.min(20)) + 4096],
        12 => vec![0, 4097, 1 << 20],
        13 => vec![0, chunk_end - 1],
        14 => vec![65_537, 1 << 20],
        15 => vec![0, 65, 128],
        16 => vec![0, plan.bulk_offset + plan.bulk_tiers * plan.tier_size - 1],
        _ => vec![0, 65, plan.chunks + 1, 4096],
    }
}

/// A block with a field changed in any way: any number may come of it.
pub fn altered(rng: &mut Rng, plan: &Plan) -> Vec<u8> {
    let mut fields = plan.fields();
    let field = rng.below(17);
    fields[field] = match rng.below(4) {
        0 => fields[field] + 1,
        1 => fields[field].saturating_sub(1),
        2 => fields[field] * 2,
        _ => fields[field] / 2,
    };
    block_of(&fields)
}
