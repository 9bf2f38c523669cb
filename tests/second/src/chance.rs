//! Chance: a splitmix generator, the same on every machine.

pub struct Chance {
    state: u64,
}

impl Chance {
    pub fn new(seed: u64) -> Chance {
        Chance { state: seed }
    }

    /// A generator of its own for case `index` of the stream that `seed` and `kind` name, so that a
    /// case never depends on the cases before it.
    pub fn of_case(seed: u64, kind: u64, index: u64) -> Chance {
        let mut first = Chance::new(seed ^ kind.wrapping_mul(0xD1B5_4A32_D192_ED03));
        let mut second = Chance::new(first.next() ^ index);
        Chance::new(second.next())
    }

    pub fn next(&mut self) -> u64 {
        self.state = self.state.wrapping_add(0x9E37_79B9_7F4A_7C15);
        let mut z = self.state;
        z = (z ^ (z >> 30)).wrapping_mul(0xBF58_476D_1CE4_E5B9);
        z = (z ^ (z >> 27)).wrapping_mul(0x94D0_49BB_1331_11EB);
        z ^ (z >> 31)
    }

    /// Below `limit`, which is not 0. The slight unevenness does no harm here.
    pub fn below(&mut self, limit: u64) -> u64 {
        ((self.next() as u128 * limit as u128) >> 64) as u64
    }

    /// From `low` to `high`, both included.
    pub fn between(&mut self, low: u64, high: u64) -> u64 {
        low + self.below(high - low + 1)
    }

    pub fn index(&mut self, length: usize) -> usize {
        self.below(length as u64) as usize
    }

    pub fn one_in(&mut self, n: u64) -> bool {
        self.below(n) == 0
    }

    pub fn percent(&mut self, part: u64) -> bool {
        self.below(100) < part
    }

    /// One of these, or as often as each of them any from `low` to `high`.
    pub fn pick_or(&mut self, from: &[u64], low: u64, high: u64) -> u64 {
        let at = self.index(from.len() + 1);
        from.get(at).copied().unwrap_or_else(|| self.between(low, high))
    }

    pub fn pick<T: Copy>(&mut self, from: &[T]) -> T {
        from[self.index(from.len())]
    }
}
