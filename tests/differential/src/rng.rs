//! splitmix64, and what the generators draw from it.

pub struct Rng(u64);

impl Rng {
    /// One stream for each case, so that a case runs alone as in its row.
    pub fn for_case(seed: u64, case: u64) -> Rng {
        let mut of_seed = Rng(seed);
        let mut of_case = Rng(of_seed.next() ^ case.wrapping_mul(0xD134_2543_DE82_EF95));
        Rng(of_case.next())
    }

    /// Another stream for its two stores of one map: what is drawn there
    /// leaves the first as it is.
    pub fn for_same_map(seed: u64, case: u64) -> Rng {
        Rng::for_case(seed ^ 0xA24B_AED4_963E_E407, case)
    }

    /// And another for its full chains.
    pub fn for_chains(seed: u64, case: u64) -> Rng {
        Rng::for_case(seed ^ 0x9FB2_1C65_1E98_DF25, case)
    }

    pub fn next(&mut self) -> u64 {
        self.0 = self.0.wrapping_add(0x9E37_79B9_7F4A_7C15);
        let mut z = self.0;
        z = (z ^ (z >> 30)).wrapping_mul(0xBF58_476D_1CE4_E5B9);
        z = (z ^ (z >> 27)).wrapping_mul(0x94D0_49BB_1331_11EB);
        z ^ (z >> 31)
    }

    /// From 0 to `limit` - 1.
    pub fn below(&mut self, limit: usize) -> usize {
        (self.next() % limit as u64) as usize
    }

    pub fn between(&mut self, low: usize, high: usize) -> usize {
        low + self.below(high - low + 1)
    }

    pub fn percent(&mut self, chance: usize) -> bool {
        self.below(100) < chance
    }

    pub fn pick<'a, T>(&mut self, from: &'a [T]) -> &'a T {
        &from[self.below(from.len())]
    }

    pub fn fill(&mut self, bytes: &mut [u8]) {
        for part in bytes.chunks_mut(8) {
            part.copy_from_slice(&self.next().to_le_bytes()[..part.len()]);
        }
    }

    pub fn bytes(&mut self, length: usize) -> Vec<u8> {
        let mut bytes = vec![0; length];
        self.fill(&mut bytes);
        bytes
    }

    pub fn shuffle<T>(&mut self, items: &mut [T]) {
        for last in (1..items.len()).rev() {
            items.swap(last, self.below(last + 1));
        }
    }
}
