//! A store of many entries, written directly: a store call for each would check the image each time.
use chronicle_map::Counts;

/// The numbers of a store. A bulk is one tier and nothing else, so all tiers stand in a row.
#[derive(Clone, Copy)]
pub struct Plan {
    pub segments: usize,
    /// Tiers of each segment's chain.
    pub tiers: usize,
    /// One extra tier is free, so that a store has somewhere to go.
    pub spare: bool,
    pub slots: usize,
    pub slot_size: usize,
    pub key_bits: usize,
    pub chunks: usize,
    pub chunk_size: usize,
    /// The most entries of a tier.
    pub entries: usize,
    /// Bytes of a key and of a record.
    pub key: usize,
    pub record: usize,
    /// So many low bits are the same in all lookup keys. Such keys are tried for, and are rare.
    pub same_bits: usize,
}

/// What the plans have in common that say nothing else.
pub const ORDINARY: Plan = Plan {
    segments: 1,
    tiers: 1,
    spare: true,
    slots: 2_048,
    slot_size: 4,
    key_bits: 20,
    chunks: 1_024,
    chunk_size: 16,
    entries: 1_000,
    key: 8,
    record: 4,
    same_bits: 0,
};

pub struct Store {
    pub block: Vec<u8>,
    pub image: Vec<u8>,
    /// In the order of their tiers, where there is one segment.
    pub keys: Vec<Vec<u8>>,
    /// The bytes of a bulk.
    pub bulk: usize,
    /// What a check must count.
    pub counts: Counts,
}

const STATE: usize = 64;
const HEADER: usize = 64;
const COUNTERS: usize = 64;
pub const RECORD: [u8; 4] = [16, 0, 0, 0];

fn put(image: &mut [u8], at: usize, width: usize, v: usize) {
    image[at..at + width].copy_from_slice(&(v as u64).to_le_bytes()[..width]);
}

impl Plan {
    fn list(&self) -> usize {
        self.chunks.div_ceil(64) * 8
    }

    fn tier_size(&self) -> usize {
        self.slots * self.slot_size + COUNTERS + self.list() + self.chunks * self.chunk_size
    }

    fn chained(&self) -> usize {
        self.segments * self.tiers
    }

    fn block(&self) -> Vec<u8> {
        let (lookup, tier) = (self.slots * self.slot_size, self.tier_size());
        let fields = [
            0, self.segments, HEADER, self.slot_size, self.slots, self.key_bits, 12, lookup, self.list(), 0, self.chunks,
            self.chunk_size, tier, 0, 1, tier, self.chunks.min(64),
        ];
        let numbers = fields.into_iter().flat_map(|f| (f as u32).to_be_bytes());
        [0, 69, 1].into_iter().chain(numbers).collect()
    }

    /// Where a tier begins. Tiers are counted from 1.
    fn tier_at(&self, tier: usize) -> usize {
        STATE + self.segments * HEADER + (tier - 1) * self.tier_size()
    }

    /// The tier that stands so far behind in a segment's chain. The main tiers come first.
    fn tier_of(&self, segment: usize, order: usize) -> usize {
        match order {
            0 => segment + 1,
            _ => self.segments + segment * (self.tiers - 1) + order,
        }
    }

    /// Segment and lookup key of a key.
    fn parts(&self, key: &[u8]) -> (usize, u64) {
        let (hash, ones) = (reference::xxh64(key), (1 << self.key_bits) - 1);
        let lookup = match (hash >> self.segments.ilog2()) & ones {
            0 => ones,
            part => part,
        };
        (hash as usize % self.segments, lookup)
    }

    fn has_its_low_bits(&self, lookup: u64) -> bool {
        let low = (1 << self.same_bits) - 1;
        lookup & low == 1 & low
    }
}

/// Every tier of a chain has as many entries as the plan says.
pub fn store(p: Plan) -> Store {
    store_of(p, p.chained() * p.entries)
}

/// So many entries in all, and of a tier no more than the plan says. A chain's tiers are filled one after the other.
pub fn store_of(p: Plan, total: usize) -> Store {
    assert!(total <= p.chained() * p.entries);
    let (chained, free) = (p.chained(), p.spare as usize);
    let size = p.tier_at(chained + free + 1);
    let counts = Counts { entries: total as u64, chunks: total as u64, tiers: chained as u64, free: free as u64 };
    let mut s = Store { block: p.block(), image: vec![0; size], keys: Vec::new(), bulk: p.tier_size(), counts };
    let extra = chained - p.segments;
    for (at, width, number) in [(8, 3, extra + free), (11, 5, (chained + 1) * free), (16, 5, extra), (21, 4, STATE), (25, 8, size)] {
        put(&mut s.image, at, width, number);
    }
    let filled = fill(&mut s, p, total);
    for place in 0..chained {
        let (segment, order) = (place / p.tiers, place % p.tiers);
        let entries = filled[segment].saturating_sub(order * p.entries).min(p.entries);
        join(&mut s.image, p, segment, order, entries);
    }
    s
}

/// A tier's place in its chain, and its counters. The lowest chunks are those that are taken.
fn join(image: &mut [u8], p: Plan, segment: usize, order: usize, entries: usize) {
    let counters = p.tier_at(p.tier_of(segment, order)) + p.slots * p.slot_size;
    let next = if order + 1 < p.tiers { p.tier_of(segment, order + 1) } else { 0 };
    let previous = if order > 0 { p.tier_of(segment, order - 1) } else { 0 };
    let header = STATE + segment * HEADER;
    // A main tier has these three in its segment's header.
    let live = match order {
        0 => [(header + 16, 8, next), (header + 12, 4, entries), (header + 8, 4, entries)],
        _ => [(counters, 8, next), (counters + 16, 8, entries), (counters + 32, 4, entries)],
    };
    let standing = [(counters + 8, 8, previous), (counters + 24, 4, segment), (counters + 28, 4, order)];
    for (at, width, number) in live.into_iter().chain(standing) {
        put(image, at, width, number);
    }
}

/// An entry in some chunk of a tier: its slot, its bit and its bytes.
fn place(image: &mut [u8], p: Plan, tier: usize, chunk: usize, key: &[u8]) {
    let (base, lookup) = (p.tier_at(tier), p.parts(key).1 as usize);
    let mut j = lookup % p.slots;
    // A full slot has its lookup key, which is not 0, in its first four bytes.
    while image[base + j * p.slot_size..][..4] != [0; 4] {
        j = (j + 1) % p.slots;
    }
    put(image, base + j * p.slot_size, p.slot_size, lookup | chunk << p.key_bits);
    let list = base + p.slots * p.slot_size + COUNTERS;
    image[list + chunk / 8] |= 1 << (chunk % 8);
    let entry = [&[key.len() as u8][..], key, &[p.record as u8], &RECORD[..p.record]].concat();
    assert!(entry.len() <= p.chunk_size);
    let at = list + p.list() + chunk * p.chunk_size;
    image[at..at + entry.len()].copy_from_slice(&entry);
}

/// The n-th of many keys of 8 bytes, no two of them alike. Nor are their first four bytes, for n below 2^32.
pub fn key(n: u64) -> [u8; 8] {
    n.wrapping_mul(0x9E37_79B9_7F4A_7C15).to_le_bytes()
}

/// How many entries each segment got.
fn fill(s: &mut Store, p: Plan, total: usize) -> Vec<usize> {
    let mut filled = vec![0; p.segments];
    let mut x = 0;
    while s.keys.len() < total {
        x += 1;
        let key = &key(x)[..p.key];
        let (segment, lookup) = p.parts(key);
        if filled[segment] == p.tiers * p.entries || !p.has_its_low_bits(lookup) {
            continue;
        }
        let tier = p.tier_of(segment, filled[segment] / p.entries);
        place(&mut s.image, p, tier, filled[segment] % p.entries, key);
        filled[segment] += 1;
        s.keys.push(key.to_vec());
    }
    filled
}

/// A store of main tiers with its spare tier in a segment's chain, and a new key, the only one in that tier.
pub fn with_a_second_tier(s: &Store, p: Plan) -> (Vec<u8>, [u8; 8]) {
    let key = key(u64::MAX);
    let (segment, _) = p.parts(&key);
    let extra = p.segments + 1;
    let mut image = s.image.clone();
    place(&mut image, p, extra, 0, &key);
    let counters = p.tier_at(extra) + p.slots * p.slot_size;
    // First free tier, used tiers and the main tier's next; then previous, lowest free chunk, segment, order and entry count.
    let links = [(11, 5, 0), (16, 5, 1), (STATE + segment * HEADER + 16, 8, extra)];
    let own = [(8, 8, segment + 1), (16, 8, 1), (24, 4, segment), (28, 4, 1), (32, 4, 1)];
    for (at, width, number) in links.into_iter().chain(own.map(|(at, width, number)| (counters + at, width, number))) {
        put(&mut image, at, width, number);
    }
    (image, key)
}
