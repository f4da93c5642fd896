//! A small generator of pseudo-random numbers (splitmix64).

pub struct Random(u64);

impl Random {
    /// The numbers of one case: they depend on the seed and the case's number alone.
    pub fn of_case(seed: u64, number: u64) -> Self {
        let mut start = Self(seed);
        let start = start.u64() ^ number.wrapping_mul(0xD1B5_4A32_D192_ED03);
        Self(start)
    }

    pub fn u64(&mut self) -> u64 {
        self.0 = self.0.wrapping_add(0x9E37_79B9_7F4A_7C15);
        let mut z = self.0;
        z = (z ^ (z >> 30)).wrapping_mul(0xBF58_476D_1CE4_E5B9);
        z = (z ^ (z >> 27)).wrapping_mul(0x94D0_49BB_1331_11EB);
        z ^ (z >> 31)
    }

    pub fn u32(&mut self) -> u32 {
        (self.u64() >> 32) as u32
    }

    pub fn u16(&mut self) -> u16 {
        (self.u64() >> 48) as u16
    }

    pub fn bit(&mut self) -> bool {
        self.u64() >> 63 == 1
    }

    /// A number below `bound`, which is above 0.
    pub fn below(&mut self, bound: u32) -> u32 {
        ((u64::from(self.u32()) * u64::from(bound)) >> 32) as u32
    }

    /// True in `parts` of a thousand.
    pub fn per_mille(&mut self, parts: u32) -> bool {
        self.below(1000) < parts
    }

    pub fn pick<T: Copy>(&mut self, choices: &[T]) -> T {
        choices[self.below(choices.len() as u32) as usize]
    }
}
