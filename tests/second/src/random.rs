//! A small generator, so that a seed that was printed gives the same cases everywhere.

pub struct Random(u64);

impl Random {
    pub fn new(seed: u64) -> Self {
        Random(seed)
    }

    pub fn next(&mut self) -> u64 {
        self.0 = self.0.wrapping_add(0x9e37_79b9_7f4a_7c15);
        let mut z = self.0;
        z = (z ^ (z >> 30)).wrapping_mul(0xbf58_476d_1ce4_e5b9);
        z = (z ^ (z >> 27)).wrapping_mul(0x94d0_49bb_1331_11eb);
        z ^ (z >> 31)
    }

    /// A number below `n`, which is not 0.
    pub fn below(&mut self, n: u64) -> u64 {
        self.next() % n
    }

    /// True once in `n` times.
    pub fn once_in(&mut self, n: u64) -> bool {
        self.below(n) == 0
    }

    pub fn shuffle<T>(&mut self, list: &mut [T]) {
        for k in (1..list.len()).rev() {
            list.swap(k, self.below(k as u64 + 1) as usize);
        }
    }

    pub fn pick<T: Copy>(&mut self, from: &[T]) -> T {
        from[self.below(from.len() as u64) as usize]
    }
}

/// Small primes, where points are scarce and degrees drop often, and the largest ones.
pub const PRIMES: [u32; 16] = [
    2,
    3,
    5,
    7,
    11,
    13,
    17,
    31,
    101,
    257,
    521,
    1031,
    65537,
    1_000_003,
    2_147_483_629,
    2_147_483_647,
];

/// Primes with points enough for the largest shape, and 521, which has hardly enough.
pub const LARGE_PRIMES: [u32; 6] = [521, 1031, 65537, 1_000_003, 2_147_483_629, 2_147_483_647];
