//! splitmix64: small, seeded, the same everywhere.

pub struct Random(u64);

/// splitmix64's mixing step (Steele, Lea, Flood: Fast splittable pseudorandom number generators, 2014).
fn mixed(x: u64) -> u64 {
    let x = (x ^ (x >> 30)).wrapping_mul(0xbf58_476d_1ce4_e5b9);
    let x = (x ^ (x >> 27)).wrapping_mul(0x94d0_49bb_1331_11eb);
    x ^ (x >> 31)
}

const STEP: u64 = 0x9e37_79b9_7f4a_7c15;

impl Random {
    /// A generator for one case of one kind, so that each case can be run alone.
    pub fn of(seed: u64, kind: &str, case: u64) -> Random {
        let parts = kind.bytes().map(u64::from).chain([case]);
        Random(parts.fold(mixed(seed.wrapping_add(STEP)), |x, part| mixed((x ^ part).wrapping_add(STEP))))
    }

    pub fn with_state(state: u64) -> Random {
        Random(state)
    }

    pub fn next(&mut self) -> u64 {
        self.0 = self.0.wrapping_add(STEP);
        mixed(self.0)
    }

    /// A number below `bound`, or 0 where `bound` is 0. The bias is of no concern here.
    pub fn below(&mut self, bound: u64) -> u64 {
        ((u128::from(self.next()) * u128::from(bound)) >> 64) as u64
    }

    /// True once in `n` times.
    pub fn one_in(&mut self, n: u64) -> bool {
        self.below(n) == 0
    }

    pub fn pick<T: Copy>(&mut self, from: &[T]) -> T {
        from[self.below(from.len() as u64) as usize]
    }

    /// `x` or a neighbour of it, up to two away.
    pub fn near(&mut self, x: u64) -> u64 {
        x.saturating_add(self.below(5)).saturating_sub(2)
    }

    /// A number of at most `bits` bits (1 to 64), every width alike.
    pub fn of_width(&mut self, bits: u64) -> u64 {
        self.next() >> (63 - self.below(bits))
    }

    pub fn fill(&mut self, bytes: &mut [u8]) {
        for chunk in bytes.chunks_mut(8) {
            let word = self.next().to_le_bytes();
            chunk.copy_from_slice(&word[..chunk.len()]);
        }
    }
}
