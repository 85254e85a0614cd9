//! On the worked store of two pairs: 1 2 with 16 and 2 1 with -16 microseconds.
use super::*;

const PAIRS: &[u8] = include_bytes!("../../../examples/pairs.store");

fn pairs() -> (&'static [u8], Vec<u8>) {
    let (block, image) = PAIRS.split_at(71);
    (block, image.to_vec())
}

/// The record under a key, read as a delay.
fn stored(block: &[u8], image: &[u8], key: [u8; 2]) -> Option<i32> {
    let bytes = record(block, image, &key).unwrap()?;
    Some(i32::from_le_bytes(bytes.try_into().unwrap()))
}

#[test]
fn the_check_counts() {
    let (block, image) = pairs();
    assert_eq!(
        check(block, &image),
        Ok(Counts {
            entries: 2,
            chunks: 2,
            tiers: 1,
            free: 1
        })
    );
}

#[test]
fn each_key_finds_its_own_record() {
    let (block, image) = pairs();
    let found = |offset, slot| {
        Ok(Located::Found {
            offset,
            length: 4,
            tier: 1,
            slot,
        })
    };
    assert_eq!(lookup(block, &image, &[1, 2]), found(236, 1));
    assert_eq!(lookup(block, &image, &[2, 1]), found(244, 2));
    assert_eq!(stored(block, &image, [1, 2]), Some(16));
    assert_eq!(stored(block, &image, [2, 1]), Some(-16));
    assert_eq!(stored(block, &image, [3, 1]), None);
}

// The search goes on to the last tier, and wraps.
#[test]
fn an_absent_key_says_where_the_search_ended() {
    let (block, mut image) = pairs();
    let absent = |tier, slot| Ok(Located::Absent { tier, slot });
    assert_eq!(lookup(block, &image, &[3, 1]), absent(1, 3));
    assert_eq!(store(block, &mut image, &[3, 1], &[0; 4]), Ok(()));
    assert_eq!(lookup(block, &image, &[1, 3]), absent(1, 0));
    assert_eq!(store(block, &mut image, &[1, 3], &[0; 4]), Ok(()));
    assert_eq!(
        lookup(block, &image, &[1, 3]).map(Located::range),
        Ok(Some(436..440))
    );
    assert_eq!(lookup(block, &image, &[4, 1]), absent(2, 2));
    assert_eq!(lookup(block, &image, &[4, 1]).map(Located::range), Ok(None));
}

// Tier 2 takes the fourth key; once that key is removed the tier is free again, and the next such key takes it.
#[test]
fn an_emptied_tier_becomes_free() {
    let (block, mut image) = pairs();
    let tiers = |image: &[u8]| check(block, image).map(|counts| (counts.tiers, counts.free));
    assert_eq!(store(block, &mut image, &[3, 1], &[0; 4]), Ok(()));
    assert_eq!(store(block, &mut image, &[1, 3], &[0; 4]), Ok(()));
    assert_eq!(tiers(&image), Ok((2, 0)));
    let full = image.clone();
    assert_eq!(remove(block, &mut image, &[1, 3]), Ok(true));
    assert_eq!(tiers(&image), Ok((1, 1)));
    assert_eq!(store(block, &mut image, &[1, 3], &[0; 4]), Ok(()));
    assert_eq!(image, full);
}

#[test]
fn a_store_alters_its_own_key_alone() {
    let (block, mut image) = pairs();
    assert_eq!(
        store(block, &mut image, &[1, 2], &7i32.to_le_bytes()),
        Ok(())
    );
    assert_eq!(stored(block, &image, [1, 2]), Some(7));
    assert_eq!(stored(block, &image, [2, 1]), Some(-16));
    assert_eq!(store(block, &mut image, &[3, 1], &[]), Ok(()));
    assert_eq!(record(block, &image, &[3, 1]), Ok(Some(&[][..])));
    assert_eq!(check(block, &image).map(|c| c.entries), Ok(3));
}

// 1 2 stands in slot 1 and chunk 0, 2 1 behind it in slot 2 and chunk 1.
#[test]
fn a_replacement_of_as_many_chunks_stays_on_the_spot() {
    let (block, mut image) = pairs();
    let before = image.clone();
    assert_eq!(
        store(block, &mut image, &[1, 2], &32i32.to_le_bytes()),
        Ok(())
    );
    assert_eq!(image[236], 32);
    image[236] = before[236];
    assert_eq!(image, before);
}

#[test]
fn a_tight_replacement_moves() {
    let (block, mut image) = pairs();
    assert_eq!(
        store_tight(block, &mut image, &[1, 2], &32i32.to_le_bytes()),
        Ok(())
    );
    assert_eq!(stored(block, &image, [1, 2]), Some(32));
    assert_eq!(
        lookup(block, &image, &[1, 2]),
        Ok(Located::Found {
            offset: 236,
            length: 4,
            tier: 1,
            slot: 2
        })
    );
    assert_eq!(
        store_tight(block, &mut image, &[1, 2], &[0; 29]),
        Err(Refusal::Value)
    );
}

#[test]
fn a_removal_says_whether_the_key_was_there() {
    let (block, mut image) = pairs();
    assert_eq!(remove(block, &mut image, &[1, 2]), Ok(true));
    assert_eq!(remove(block, &mut image, &[1, 2]), Ok(false));
    assert_eq!(stored(block, &image, [1, 2]), None);
    assert_eq!(stored(block, &image, [2, 1]), Some(-16));
}

// A bulk is one tier of 200 bytes, so that the new one is tier 3, from 496 on. Tier 2 is free before.
#[test]
fn one_more_bulk() {
    let (block, mut image) = pairs();
    image.extend([0xFF; 200]);
    let mut after = image.clone();
    after[8] = 2;
    after[11] = 3;
    after[25..33].copy_from_slice(&696u64.to_le_bytes());
    after[496..512].fill(0);
    after[560..568].copy_from_slice(&2u64.to_le_bytes());
    after[568..596].fill(0);
    after[624] = 0;
    assert_eq!(grow(block, &mut image), Ok(()));
    assert_eq!(image, after);
    assert_eq!(
        check(block, &image),
        Ok(Counts {
            entries: 2,
            chunks: 2,
            tiers: 1,
            free: 2
        })
    );
    assert_eq!(grow(block, &mut image), Err(Refusal::NoBulk));
    assert_eq!(image, after);
}

#[test]
fn no_bulk_where_a_byte_is_lacking_or_the_image_is_refused() {
    let (block, mut image) = pairs();
    assert_eq!(grow(block, &mut image), Err(Refusal::NoBulk));
    image.extend([0xFF; 199]);
    let before = image.clone();
    assert_eq!(grow(block, &mut image), Err(Refusal::NoBulk));
    assert_eq!(grow(&[], &mut image), Err(Refusal::Block));
    assert_eq!(image, before);
    image[100] ^= 1;
    assert_eq!(grow(block, &mut image), Err(Refusal::Entries));
}

// Each tier takes three entries.
#[test]
fn a_full_store_takes_the_next_record_after_one_more_bulk() {
    let (block, mut image) = pairs();
    for key in [[3, 1], [1, 3], [4, 1], [5, 1]] {
        assert_eq!(store(block, &mut image, &key, &[0; 4]), Ok(()));
    }
    let next = |image: &mut [u8]| store(block, image, &[6, 1], &40i32.to_le_bytes());
    assert_eq!(next(&mut image), Err(Refusal::Full));
    image.extend([0; 200]);
    assert_eq!(next(&mut image), Err(Refusal::Full));
    assert_eq!(grow(block, &mut image), Ok(()));
    assert_eq!(next(&mut image), Ok(()));
    assert_eq!(stored(block, &image, [6, 1]), Some(40));
    assert_eq!(stored(block, &image, [1, 2]), Some(16));
    assert_eq!(
        lookup(block, &image, &[6, 1]).map(Located::range),
        Ok(Some(636..640))
    );
}

#[test]
fn the_list() {
    let (block, image) = pairs();
    let row = Row {
        segment: 0,
        tier: 1,
        slot: 2,
        chunk: 1,
        chunks: 1,
        key_length: 2,
        value_length: 4,
    };
    assert_eq!(entry(block, &image, 1), Ok(Some(row)));
    assert_eq!(entry(block, &image, 2), Ok(None));
    assert_eq!(entry(block, &image, u64::MAX), Ok(None));
}

// Two tiers of three entries each are full.
#[test]
fn a_full_store_is_left_as_it_was() {
    let (block, mut image) = pairs();
    for key in [[3, 1], [1, 3], [4, 1], [5, 1]] {
        assert_eq!(store(block, &mut image, &key, &[0; 4]), Ok(()));
    }
    let before = image.clone();
    assert_eq!(
        store(block, &mut image, &[6, 1], &[0; 4]),
        Err(Refusal::Full)
    );
    assert_eq!(set_delay(block, &mut image, 6, 7, 1), Err(Refusal::Full));
    assert_eq!(
        set_delay(block, &mut image, 6, 7, i32::MIN),
        Err(Refusal::Delay)
    );
    assert_eq!(image, before);
}

#[test]
fn refusals_by_number() {
    let (block, mut image) = pairs();
    let mut field = block.to_vec();
    field[10] = 3;
    let at = |n: usize| {
        let mut damaged = pairs().1;
        damaged[n] ^= 1;
        check(block, &damaged).map_err(Refusal::number)
    };
    assert_eq!(check(&[], &[]), Err(Refusal::Block));
    assert_eq!(check(&block[..70], &image), Err(Refusal::Block));
    assert_eq!(check(&field, &image), Err(Refusal::Field));
    assert_eq!(check(block, &[]), Err(Refusal::Frame));
    assert_eq!(
        (at(25), at(11), at(100), at(224)),
        (Err(4), Err(5), Err(6), Err(7))
    );
    assert_eq!(lookup(block, &image, &[]), Err(Refusal::Key));
    assert_eq!(remove(block, &mut image, &[0; 1025]), Err(Refusal::Key));
    assert_eq!(
        store(block, &mut image, &[1, 2], &[0; 29]),
        Err(Refusal::Value)
    );
    assert_eq!(image, pairs().1);
    assert_eq!(Refusal::Full.number(), 10);
    assert_eq!(Refusal::Pair.number(), 11);
    assert_eq!(Refusal::Delay.number(), 12);
    assert_eq!(Refusal::NoBulk.number(), 13);
    assert_eq!(Refusal::Walk.number(), 18);
}

// The record under 2 1 is no part of the pair: it stays -16.
#[test]
fn both_orders_of_a_pair_have_opposite_delays() {
    let (block, mut image) = pairs();
    for (a, b, given, kept) in [
        (1, 2, 7, 7),
        (2, 1, 7, -7),
        (2, 1, -25, 25),
        (1, 2, 0, 0),
        (1, 2, i32::MAX, i32::MAX),
        (2, 1, i32::MAX, -i32::MAX),
        (2, 1, -i32::MAX, i32::MAX),
    ] {
        assert_eq!(set_delay(block, &mut image, a, b, given), Ok(()));
        assert_eq!(delay(block, &image, a, b), Ok(Some(given)));
        assert_eq!(delay(block, &image, b, a), Ok(Some(-given)));
        assert_eq!(stored(block, &image, [1, 2]), Some(kept));
        assert_eq!(stored(block, &image, [2, 1]), Some(-16));
    }
}

#[test]
fn an_absent_pair_has_no_delay_until_it_is_set() {
    let (block, mut image) = pairs();
    for (a, b) in [(1, 32), (32, 1)] {
        assert_eq!(delay(block, &image, a, b), Ok(None));
    }
    assert_eq!(set_delay(block, &mut image, 32, 1, -40), Ok(()));
    assert_eq!(delay(block, &image, 1, 32), Ok(Some(40)));
    assert_eq!(stored(block, &image, [1, 32]), Some(40));
    assert_eq!(stored(block, &image, [32, 1]), None);
    assert_eq!(remove(block, &mut image, &[1, 32]), Ok(true));
    assert_eq!(delay(block, &image, 32, 1), Ok(None));
}

#[test]
fn channels_out_of_range_or_equal_are_refused() {
    let (block, mut image) = pairs();
    for bad in [0, 33, 255, 256, 257, 0x1_0001, u32::MAX] {
        for (a, b) in [(bad, 2), (2, bad), (bad, bad)] {
            assert_eq!(delay(block, &image, a, b), Err(Refusal::Pair));
            for given in [5, i32::MIN] {
                let set = set_delay(block, &mut image, a, b, given);
                assert_eq!(set, Err(Refusal::Pair));
            }
        }
    }
    assert_eq!(delay(block, &image, 2, 2), Err(Refusal::Pair));
    assert_eq!(set_delay(block, &mut image, 2, 2, 0), Err(Refusal::Pair));
    assert_eq!(image, pairs().1);
}

#[test]
fn the_most_negative_number_is_never_set() {
    let (block, mut image) = pairs();
    for (a, b) in [(1, 2), (2, 1), (3, 4), (4, 3)] {
        let set = set_delay(block, &mut image, a, b, i32::MIN);
        assert_eq!(set, Err(Refusal::Delay));
    }
    assert_eq!(image, pairs().1);
}

#[test]
fn a_stored_record_that_is_no_delay_is_refused_until_it_is_set() {
    let (block, mut image) = pairs();
    let most_negative = i32::MIN.to_le_bytes();
    for record in [&[][..], &[1, 0, 0], &[1, 0, 0, 0, 0], &most_negative] {
        assert_eq!(store(block, &mut image, &[1, 2], record), Ok(()));
        let before = image.clone();
        assert_eq!(delay(block, &image, 1, 2), Err(Refusal::Delay));
        assert_eq!(delay(block, &image, 2, 1), Err(Refusal::Delay));
        let set = set_delay(block, &mut image, 2, 1, i32::MIN);
        assert_eq!(set, Err(Refusal::Delay));
        assert_eq!(image, before);
        assert_eq!(set_delay(block, &mut image, 2, 1, 9), Ok(()));
        assert_eq!(delay(block, &image, 1, 2), Ok(Some(-9)));
    }
}

#[test]
fn a_damaged_image_is_refused_before_the_pair_and_the_delay() {
    let (block, mut image) = pairs();
    image[100] ^= 1;
    let before = image.clone();
    for (a, b) in [(1, 2), (0, 2), (2, 2)] {
        assert_eq!(delay(block, &image, a, b), Err(Refusal::Entries));
        let set = set_delay(block, &mut image, a, b, i32::MIN);
        assert_eq!(set, Err(Refusal::Entries));
        assert_eq!(delay(&[], &image, a, b), Err(Refusal::Block));
    }
    assert_eq!(image, before);
}

// The two keys, an absent one, and with more keys the second tier.
#[test]
fn a_quick_lookup_answers_as_the_lookup() {
    let (block, mut image) = pairs();
    let compare = |image: &[u8], key: &[u8]| {
        let quick = quick_lookup(block, image, key);
        assert_eq!(quick, lookup(block, image, key));
        assert_eq!(quick_record(block, image, key), record(block, image, key));
        quick
    };
    let found = |offset, tier, slot| {
        Ok(Located::Found {
            offset,
            length: 4,
            tier,
            slot,
        })
    };
    let absent = |tier, slot| Ok(Located::Absent { tier, slot });
    assert_eq!(compare(&image, &[1, 2]), found(236, 1, 1));
    assert_eq!(compare(&image, &[2, 1]), found(244, 1, 2));
    assert_eq!(compare(&image, &[3, 1]), absent(1, 3));
    for key in [[3, 1], [1, 3]] {
        assert_eq!(store(block, &mut image, &key, &[0; 4]), Ok(()));
    }
    assert_eq!(compare(&image, &[1, 3]), found(436, 2, 1));
    assert_eq!(compare(&image, &[6, 1]), absent(2, 2));
    for key in [[4, 1], [5, 1]] {
        assert_eq!(store(block, &mut image, &key, &[]), Ok(()));
    }
    assert_eq!(compare(&image, &[6, 1]), absent(2, 0));
    assert_eq!(quick_record(block, &image, &[5, 1]), Ok(Some(&[][..])));
}

#[test]
fn a_quick_ask_answers_as_the_ask() {
    let (block, mut image) = pairs();
    for (a, b) in [(32, 1), (3, 4)] {
        assert_eq!(set_delay(block, &mut image, a, b, -40), Ok(()));
    }
    for (a, b) in [(1, 2), (1, 32), (3, 4), (5, 6)] {
        for (a, b) in [(a, b), (b, a)] {
            assert_eq!(quick_delay(block, &image, a, b), delay(block, &image, a, b));
        }
    }
    assert_eq!(quick_delay(block, &image, 1, 2), Ok(Some(16)));
    assert_eq!(quick_delay(block, &image, 2, 1), Ok(Some(-16)));
    assert_eq!(quick_delay(block, &image, 1, 32), Ok(Some(40)));
    assert_eq!(quick_delay(block, &image, 5, 6), Ok(None));
}

/// The number of a lookup.
fn number(answer: Result<Located, Refusal>) -> u32 {
    match answer {
        Ok(Located::Found { .. }) => 0,
        Ok(Located::Absent { .. }) => 1,
        Err(refusal) => refusal.number(),
    }
}

/// Bytes of the image, by offset.
type Damage = &'static [(usize, u8)];

// Each damage with the check's number, and with the quick lookups' of 1 2, 2 1 and 3 1. The walk does not meet what stands
// behind the slot where the key is found, nor what it does not need: bits, the low mark, the higher bits of a slot.
#[test]
fn a_quick_lookup_notices_only_what_it_meets() {
    let cases: [(Damage, u32, [u32; 3]); 11] = [
        (&[(80, 2)], 5, [0, 0, 1]),
        (&[(80, 1)], 5, [0, 0, 18]),
        (&[(80, 3)], 5, [0, 0, 18]),
        (&[(224, 0)], 7, [0, 0, 1]),
        (&[(100, 0x11)], 6, [18, 18, 18]),
        (&[(100, 0x21)], 6, [0, 0, 1]),
        (&[(235, 0x84), (236, 0)], 6, [18, 18, 18]),
        (&[(243, 0x84), (244, 0)], 6, [0, 18, 18]),
        (&[(235, 0x3C)], 6, [0, 0, 1]),
        (&[(235, 0x3D)], 6, [18, 18, 18]),
        (&[(96, 2), (108, 2)], 6, [0, 0, 18]),
    ];
    for (damage, checked, quick) in cases {
        let (block, mut image) = pairs();
        for &(at, byte) in damage {
            image[at] = byte;
        }
        for (key, quick) in [[1, 2], [2, 1], [3, 1]].into_iter().zip(quick) {
            let answers = (
                lookup(block, &image, &key),
                quick_lookup(block, &image, &key),
            );
            assert_eq!(
                (number(answers.0), number(answers.1)),
                (checked, quick),
                "{damage:?} {key:?}"
            );
        }
    }
}

// Five chunks are more than an entry may take, which the walk does not test; the free tier 2 is not in the chain.
#[test]
fn what_a_quick_lookup_tells_of_a_damaged_image() {
    let (block, mut image) = pairs();
    image[235] = 29;
    let long = image[236..265].to_vec();
    assert_eq!(record(block, &image, &[1, 2]), Err(Refusal::Entries));
    assert_eq!(quick_record(block, &image, &[1, 2]), Ok(Some(&long[..])));
    assert_eq!(quick_delay(block, &image, 1, 2), Err(Refusal::Delay));
    image[80] = 2;
    assert_eq!(
        quick_lookup(block, &image, &[3, 1]),
        Ok(Located::Absent { tier: 2, slot: 1 })
    );
}

// Tier 2 leads to itself.
#[test]
fn a_quick_lookup_ends_on_a_ring_of_tiers() {
    let (block, mut image) = pairs();
    for key in [[3, 1], [1, 3]] {
        assert_eq!(store(block, &mut image, &key, &[0; 4]), Ok(()));
    }
    image[360] = 2;
    assert_eq!(lookup(block, &image, &[1, 3]), Err(Refusal::Chains));
    assert_eq!(quick_record(block, &image, &[1, 3]), Ok(Some(&[0; 4][..])));
    assert_eq!(quick_lookup(block, &image, &[6, 1]), Err(Refusal::Walk));
    assert_eq!(quick_delay(block, &image, 31, 32), Err(Refusal::Walk));
}

// The block, the frame and the key come before the walk; slot 1 of this image is broken.
#[test]
fn quick_refusals_in_their_order() {
    let (block, mut image) = pairs();
    let mut field = block.to_vec();
    field[10] = 3;
    image[100] = 0x11;
    for (block, image, first) in [
        (&block[..70], &image[..], Refusal::Block),
        (&field, &[], Refusal::Field),
        (block, &image[..495], Refusal::Frame),
    ] {
        assert_eq!(quick_lookup(block, image, &[]), Err(first));
        assert_eq!(quick_delay(block, image, 0, 0), Err(first));
    }
    for key in [&[][..], &[0; 1025]] {
        assert_eq!(quick_lookup(block, &image, key), Err(Refusal::Key));
        assert_eq!(quick_record(block, &image, key), Err(Refusal::Key));
    }
    assert_eq!(quick_lookup(block, &image, &[0; 1024]), Err(Refusal::Walk));
    assert_eq!(quick_record(block, &image, &[1, 2]), Err(Refusal::Walk));
    for (a, b) in [(0, 2), (2, 33), (257, 2), (2, 2)] {
        assert_eq!(quick_delay(block, &image, a, b), Err(Refusal::Pair));
    }
    assert_eq!(quick_delay(block, &image, 2, 1), Err(Refusal::Walk));
}

#[test]
fn a_quick_ask_refuses_a_record_that_is_no_delay() {
    let (block, mut image) = pairs();
    let most_negative = i32::MIN.to_le_bytes();
    for record in [&[][..], &[1, 0, 0], &[1, 0, 0, 0, 0], &most_negative] {
        assert_eq!(store(block, &mut image, &[1, 2], record), Ok(()));
        assert_eq!(quick_delay(block, &image, 1, 2), Err(Refusal::Delay));
        assert_eq!(quick_delay(block, &image, 2, 1), Err(Refusal::Delay));
    }
}

// The same two pairs, stored the other way round: only places differ.
#[test]
fn two_stores_of_one_map_answer_alike() {
    let (block, mut one) = pairs();
    let mut other = one.clone();
    for key in [[1, 2], [2, 1]] {
        assert_eq!(remove(block, &mut other, &key), Ok(true));
    }
    for (key, delay) in [([2, 1], -16i32), ([1, 2], 16)] {
        let record = delay.to_le_bytes();
        assert_eq!(store_tight(block, &mut other, &key, &record), Ok(()));
    }
    let place = |image: &[u8]| lookup(block, image, &[1, 2]).map(Located::range);
    assert_eq!(place(&one), Ok(Some(236..240)));
    assert_eq!(place(&other), Ok(Some(244..248)));
    for image in [&mut one, &mut other] {
        assert_eq!(set_delay(block, image, 3, 1, 7), Ok(()));
        assert_eq!(delay(block, image, 1, 3), Ok(Some(-7)));
        assert_eq!(stored(block, image, [2, 1]), Some(-16));
        assert_eq!(remove(block, image, &[2, 1]), Ok(true));
        assert_eq!(remove(block, image, &[2, 1]), Ok(false));
        assert_eq!(store(block, image, &[1, 2], &[9; 29]), Err(Refusal::Value));
        assert_eq!(delay(block, image, 2, 1), Ok(Some(-16)));
    }
}

#[test]
fn published_hashes() {
    assert_eq!(xxh64(b""), 0xef46db3751d8e999);
    assert_eq!(xxh64(b"abc"), 0x44bc2cf5ad770999);
}
