//! A small generator of numbers (splitmix64). The same seed gives the same numbers on every machine; no
//! floating point is used anywhere, so that the cases can be made again bit for bit.

pub struct Random {
    state: u64,
}

impl Random {
    pub fn new(seed: u64) -> Random {
        Random { state: seed }
    }

    pub fn word(&mut self) -> u64 {
        self.state = self.state.wrapping_add(0x9E37_79B9_7F4A_7C15);
        let mut z = self.state;
        z = (z ^ (z >> 30)).wrapping_mul(0xBF58_476D_1CE4_E5B9);
        z = (z ^ (z >> 27)).wrapping_mul(0x94D0_49BB_1331_11EB);
        z ^ (z >> 31)
    }

    /// A number from `low` to `high`, both included. The bias is far below what matters here.
    pub fn between(&mut self, low: u64, high: u64) -> u64 {
        low + self.word() % (high - low + 1)
    }

    pub fn small(&mut self, low: u32, high: u32) -> u32 {
        self.between(low as u64, high as u64) as u32
    }

    /// True once in `times`.
    pub fn once_in(&mut self, times: u64) -> bool {
        self.between(1, times) == 1
    }

    pub fn pick<A: Copy>(&mut self, from: &[A]) -> A {
        from[self.between(0, from.len() as u64 - 1) as usize]
    }
}
