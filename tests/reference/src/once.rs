//! No key has two slots in a chain: the one rule of slots and entries that
//! looks beyond a tier. It is asked where the others hold for each tier.

use crate::search::SlotEnd;
use crate::settings::Settings;
use crate::tier::Tier;

/// How many steps the walks of a tier may take for each of its slots.
const STEPS_A_SLOT: usize = 4;

/// The table has 512 values for a short chain and 16,384 for any other.
const SMALL_BITS: u32 = 9;
const LARGE_BITS: u32 = 14;

/// On average a pass takes no more, so that half of the table stays empty.
const ENTRIES_A_PASS: usize = 8192;

/// The ordinary case, a chain of one tier. Two slots of one key would have
/// one start slot, and the walk from there to the second meets the first.
pub struct Walks {
    steps_left: usize,
    /// Whether no two slots that were walked to can have one key.
    pub settled: bool,
}

impl Walks {
    pub fn new(settings: &Settings, tiers: usize) -> Walks {
        Walks {
            steps_left: STEPS_A_SLOT * settings.slots,
            settled: tiers == 1,
        }
    }

    /// From a full slot's start to the slot itself. Only lookup keys are
    /// compared: where one comes again, the passes say whose it is.
    pub fn walk(&mut self, settings: &Settings, image: &[u8], tier: &Tier, place: usize) {
        let lookup_key = settings.lookup_key(settings.slot_at(image, tier, place));
        let mut met = settings.start_slot(lookup_key);
        while self.settled && met != place {
            let other = settings.lookup_key(settings.slot_at(image, tier, met));
            self.steps_left -= 1;
            self.settled = other != lookup_key && self.steps_left > 0;
            met = settings.next_slot(met);
        }
    }
}

/// How the entries of a chain are divided into passes. An entry's number
/// comes from its key alone, so that two entries of one key meet: the low
/// bits choose the pass, the bits above them the place in the table.
#[derive(Clone, Copy)]
struct Plan {
    pass_bits: u32,
    table_bits: u32,
    /// Lookup keys are the numbers unless they are too short.
    by_hash: bool,
}

impl Plan {
    fn new(settings: &Settings, entries: usize) -> Plan {
        let short = entries <= most_in_table(SMALL_BITS);
        let table_bits = if short { SMALL_BITS } else { LARGE_BITS };
        let passes = entries.div_ceil(ENTRIES_A_PASS).next_power_of_two();
        let pass_bits = passes.trailing_zeros();
        Plan {
            pass_bits,
            table_bits,
            by_hash: settings.key_bits < (pass_bits + table_bits) as usize,
        }
    }

    fn passes(&self) -> u64 {
        1 << self.pass_bits
    }

    fn pass(&self, number: u64) -> u64 {
        number & (self.passes() - 1)
    }

    fn place(&self, number: u64) -> usize {
        (number >> self.pass_bits) as usize & ((1 << self.table_bits) - 1)
    }
}

/// Three quarters, so that an empty place is never far.
fn most_in_table(bits: u32) -> usize {
    (1 << bits) / 4 * 3
}

/// A slot of a chain. The tier is its place in the chain.
#[derive(Clone, Copy)]
struct Slot {
    tier: usize,
    place: usize,
    value: u64,
}

/// A chain in which each tier by itself has met the rules of slots and
/// entries.
pub struct Chain<'a> {
    pub settings: &'a Settings,
    pub image: &'a [u8],
    pub tiers: Vec<Tier>,
    pub entries: usize,
}

impl<'a> Chain<'a> {
    /// Whether no key has two slots.
    pub fn keys_stand_once(&self) -> bool {
        let plan = Plan::new(self.settings, self.entries);
        (0..plan.passes()).all(|pass| self.pass_holds(plan, pass))
    }

    /// Whether no two entries of a pass have one key. Keys can be made so
    /// that there are more than the table takes.
    fn pass_holds(&self, plan: Plan, pass: u64) -> bool {
        let mut table = vec![0; 1 << plan.table_bits];
        let mut room = most_in_table(plan.table_bits);
        for (slot, number) in self.entries_of(plan, pass) {
            if room == 0 {
                return self.pass_holds_slowly(plan, pass);
            }
            room -= 1;
            if !self.put(&mut table, plan.place(number), slot) {
                return false;
            }
        }
        true
    }

    /// The same without a table: the search for each key ends at its slot.
    fn pass_holds_slowly(&self, plan: Plan, pass: u64) -> bool {
        self.entries_of(plan, pass)
            .all(|(slot, _)| self.search_ends_at(slot))
    }

    fn search_ends_at(&self, slot: Slot) -> bool {
        let (settings, key) = (self.settings, self.key(slot));
        let lookup_key = settings.lookup_key(slot.value);
        let mut ends = self.tiers.iter().enumerate().filter_map(|(order, tier)| {
            match settings.find(self.image, tier, lookup_key, key) {
                SlotEnd::Key { place, .. } => Some((order, place)),
                SlotEnd::Empty { .. } => None,
            }
        });
        ends.next() == Some((slot.tier, slot.place))
    }

    /// Puts an entry into the table; false if its key is there already.
    fn put(&self, table: &mut [u32], start: usize, slot: Slot) -> bool {
        let mut at = start;
        while table[at] != 0 {
            if self.have_one_key(self.slot_of(table[at]), slot) {
                return false;
            }
            at = (at + 1) & (table.len() - 1);
        }
        table[at] = self.table_value(slot);
        true
    }

    /// The first tier counts as 1 here, since 0 is an empty place.
    fn table_value(&self, slot: Slot) -> u32 {
        ((slot.tier + 1) * self.settings.slots + slot.place) as u32
    }

    fn slot_of(&self, value: u32) -> Slot {
        let value = value as usize;
        let slots = self.settings.slots;
        self.slot(value / slots - 1, value % slots)
    }

    fn have_one_key(&self, one: Slot, other: Slot) -> bool {
        let lookup_key = |slot: Slot| self.settings.lookup_key(slot.value);
        lookup_key(one) == lookup_key(other) && self.key(one) == self.key(other)
    }

    /// The full slots of a pass, with their numbers.
    fn entries_of(&self, plan: Plan, pass: u64) -> impl Iterator<Item = (Slot, u64)> {
        self.full_slots()
            .map(move |slot| (slot, self.number(plan, slot)))
            .filter(move |(_, number)| plan.pass(*number) == pass)
    }

    fn number(&self, plan: Plan, slot: Slot) -> u64 {
        if plan.by_hash {
            self.settings.chain_hash(self.key(slot))
        } else {
            self.settings.lookup_key(slot.value)
        }
    }

    fn full_slots(&self) -> impl Iterator<Item = Slot> {
        let places = 0..self.settings.slots;
        (0..self.tiers.len())
            .flat_map(move |tier| places.clone().map(move |place| self.slot(tier, place)))
            .filter(|slot| slot.value != 0)
    }

    fn slot(&self, tier: usize, place: usize) -> Slot {
        let value = self.settings.slot_at(self.image, &self.tiers[tier], place);
        Slot { tier, place, value }
    }

    fn key(&self, slot: Slot) -> &'a [u8] {
        let chunk = self.settings.first_chunk(slot.value);
        let key = self
            .settings
            .key_at(self.image, &self.tiers[slot.tier], chunk);
        key.expect("the check has passed every entry")
    }
}
