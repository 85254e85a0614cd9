//! What the full chains of a whole run must have come upon.

/// What the chains are like that were accepted, and those in which a key twice
/// was refused: their tiers.
pub const TIERS: [&str; 9] = [
    "of one tier with at most two entries",
    "of one tier with C - 1 full slots",
    "of twelve tiers with C - 1 full slots each",
    "of several tiers of 512 slots",
    "with a main tier without entries",
    "with a tier without entries between others",
    "with a last tier without entries",
    "with a slot behind the wrap",
    "of several tiers behind another of several",
];
/// Their slots.
pub const BITS: [&str; 8] = [
    "with slots of 4 bytes",
    "with slots of 8 bytes",
    "with K = 1",
    "with K = 2",
    "with K = 3",
    "with K = 8",
    "with the greatest K for slots of 4 bytes",
    "with the greatest K for slots of 8 bytes",
];
/// Their keys.
pub const KEYS: [&str; 8] = [
    "of keys with one lookup key, K above 16",
    "of keys with one hash",
    "of keys alike in low bits of their lookup keys, K above 16",
    "with more keys of one lookup key than slots in a tier",
    "with hash parts of 0, K above 16",
    "with a key of one byte",
    "with a key of 128 bytes or more",
    "with a key of 1,024 bytes",
];
/// Those that take their time.
pub const LARGE: [&str; 12] = [
    "of more than 8,192 entries with K = 8",
    "of more than 8,192 entries with K = 32",
    "of more than 16,384 entries with K = 8",
    "of more than 16,384 entries with K = 32",
    "of more than 12,300 entries alike in 13 low bits of their lookup keys",
    "of more than 12,300 entries alike in 8 low bits and others",
    "of more than 12,300 entries alike in 3 low bits, K = 8",
    "of more than 8,192 entries behind another of as many",
    "of few entries behind another of more than 8,192",
    "of more than 65,536 slots",
    "of more than 65,536 entries",
    "of more than 256 tiers",
];
/// Their entries, exactly: next to powers of two and to three quarters of them.
pub const SIZES: [usize; 11] = [
    64, 128, 192, 256, 384, 512, 4096, 6144, 8192, 12_288, 16_384,
];
/// The same for entries of alike lookup keys, which are gone over together: as
/// many as a table takes.
pub const TABLES: [usize; 2] = [6144, 12_288];

pub const IN_TIER: [&str; 4] = [
    "in two slots in a row",
    "in two slots of a tier with others between",
    "in two slots of a tier with the wrap between",
    "in two slots of a tier behind the wrap",
];
pub const IN_CHAIN: [&str; 4] = [
    "in two tiers in a row",
    "in two tiers with others between",
    "in the first and the last of several tiers",
    "in two tiers with one without entries between",
];
pub const NEWER: [&str; 4] = [
    "in the first slot of the two",
    "in the second slot of the two",
    "in the first tier of the two",
    "in the second tier of the two",
];
pub const SLOTS: [&str; 4] = [
    "one of them in the first slot",
    "one of them in the last slot",
    "the second in the last slot of the last tier",
    "in one slot of two tiers",
];
pub const ONE_ENTRY: &str = "a key twice by two slots of one entry";
pub const THREE_TIMES: &str = "a key three times, in three tiers";
/// The low bits of the lookup key are taken to part the entries of a long
/// chain: a key of each part must have been there twice.
pub const RESIDUES: u64 = 8;
const RESIDUE_BITS: [usize; 2] = [8, 32];

pub const FORMS: [&str; 8] = [
    "that differ in the last byte",
    "that differ in the first byte",
    "of which the new one has a byte more",
    "of which the new one has a byte less",
    "that differ in the rest of the hash",
    "that have one hash",
    "that have one hash, the new one with bytes more",
    "that have one hash and differ in two words alone",
];
pub const UNREACHED: [&str; 7] = [
    "moved to the next gap",
    "moved to a gap farther on",
    "moved over the wrap",
    "put behind an empty start slot",
    "put behind a gap after its start slot",
    "cut off by an entry taken out",
    "cut off by an entry taken out, over the wrap",
];
pub const EXCHANGED: [&str; 2] = [
    "two slots exchanged, and both are reached",
    "two slots exchanged, and one is not reached",
];
pub const STILL_REACHED: &str = "an entry taken out, and all slots are reached";
pub const FULL: [&str; 4] = [
    "the only one of its chain",
    "the first of several",
    "between others",
    "the last of several",
];
pub const WIDE: [&str; 2] = [
    "a slot that is not reached in a tier of 4,096",
    "a tier of 4,096 full slots",
];
pub const BROKEN: [&str; 3] = ["an entry count", "a chunk's mark", "a low mark"];
pub const SIDES: [&str; 4] = [
    "in an earlier tier",
    "in its own tier",
    "in a tier between",
    "in a later tier",
];

pub fn accepted(shape: &str) -> String {
    format!("a full chain accepted, {shape}")
}

pub fn refused(shape: &str) -> String {
    format!("a full chain refused for a key twice, {shape}")
}

/// The number of entries, if it is one of the planned ones.
pub fn size(entries: usize) -> Option<String> {
    is_near(&SIZES, entries).then(|| format!("of exactly {entries} entries"))
}

/// The same if their lookup keys are alike.
pub fn alike_size(entries: usize) -> Option<String> {
    is_near(&TABLES, entries).then(|| format!("of exactly {entries} entries alike in 8 low bits"))
}

fn is_near(sizes: &[usize], entries: usize) -> bool {
    let mut sizes = sizes.iter();
    sizes.any(|size| size.abs_diff(entries) <= 1)
}

pub fn twice(place: &str, same_record: bool) -> String {
    let record = match same_record {
        true => "its record",
        false => "another record",
    };
    format!("a key twice {place}, with {record}")
}

pub fn newer(place: &str) -> String {
    format!("a key twice, the new one {place}")
}

pub fn of_slots(place: &str) -> String {
    format!("a key twice, {place}")
}

pub fn residue(rest: u64, key_bits: usize) -> String {
    format!("a key twice in more than 16,384 entries, K = {key_bits}, lookup key {rest} modulo 8")
}

pub fn near(form: &str, one_tier: bool) -> String {
    let place = if one_tier { "one tier" } else { "two tiers" };
    format!("two keys of one lookup key in {place} {form}")
}

fn kind_of(main: bool) -> &'static str {
    if main { "a main tier" } else { "an extra tier" }
}

pub fn unreached(event: &str, main: bool) -> String {
    format!("a slot of {} {event}", kind_of(main))
}

pub fn full(place: &str) -> String {
    format!("a tier of full slots alone, {place}")
}

pub fn alone(broken: &str, main: bool) -> String {
    format!("7 for {broken} of {} in a full chain", kind_of(main))
}

pub fn before(broken: &str, side: &str) -> String {
    format!("6 for a key twice before 7 for {broken} {side}")
}

pub fn planned() -> Vec<String> {
    [shapes(), twins(), slots(), counters()].concat()
}

fn shapes() -> Vec<String> {
    let shapes = TIERS.into_iter().chain(BITS).chain(KEYS).chain(LARGE);
    let near = |size: usize| size - 1..=size + 1;
    let sizes = SIZES.into_iter().flat_map(near).filter_map(size);
    let tables = TABLES.into_iter().flat_map(near).filter_map(alike_size);
    let shapes = shapes.map(str::to_string).chain(sizes).chain(tables);
    shapes
        .flat_map(|shape| [accepted(&shape), refused(&shape)])
        .collect()
}

fn twins() -> Vec<String> {
    let places = IN_TIER.into_iter().chain(IN_CHAIN);
    let places = places.flat_map(|place| [true, false].map(|same| twice(place, same)));
    let bits = RESIDUE_BITS.into_iter();
    let residues = bits.flat_map(|bits| (0..RESIDUES).map(move |rest| residue(rest, bits)));
    let forms = FORMS.into_iter();
    let near = forms.flat_map(|form| [true, false].map(|one_tier| near(form, one_tier)));
    places
        .chain(NEWER.map(newer))
        .chain(SLOTS.map(of_slots))
        .chain([ONE_ENTRY, THREE_TIMES].map(str::to_string))
        .chain(residues)
        .chain(near)
        .collect()
}

fn slots() -> Vec<String> {
    let kinds = UNREACHED.into_iter();
    let kinds = kinds.flat_map(|event| [true, false].map(|main| unreached(event, main)));
    let others = EXCHANGED.into_iter().chain([STILL_REACHED]).chain(WIDE);
    kinds
        .chain(others.map(str::to_string))
        .chain(FULL.map(full))
        .collect()
}

fn counters() -> Vec<String> {
    let kinds = BROKEN.into_iter();
    let kinds = kinds.flat_map(|broken| [true, false].map(|main| alone(broken, main)));
    let order = BROKEN.into_iter();
    let order = order.flat_map(|broken| SIDES.map(|side| before(broken, side)));
    kinds.chain(order).collect()
}
