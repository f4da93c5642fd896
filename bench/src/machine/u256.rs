//! 256-bit values, after the `U256` that docs/src imports: four words, the lowest first.

#[derive(Clone, Copy, PartialEq, Eq, Default, Debug)]
#[repr(transparent)]
pub struct U256(pub [u64; 4]);

impl U256 {
    #[inline]
    pub const fn zero() -> Self {
        U256([0; 4])
    }

    #[inline]
    pub const fn from_u64(low: u64) -> Self {
        U256([low, 0, 0, 0])
    }

    #[inline]
    pub fn overflowing_add(self, other: U256) -> (U256, bool) {
        let ([a0, a1, a2, a3], [b0, b1, b2, b3]) = (self.0, other.0);
        let (r0, c) = a0.carrying_add(b0, false);
        let (r1, c) = a1.carrying_add(b1, c);
        let (r2, c) = a2.carrying_add(b2, c);
        let (r3, c) = a3.carrying_add(b3, c);
        (U256([r0, r1, r2, r3]), c)
    }

    #[inline]
    pub fn overflowing_sub(self, other: U256) -> (U256, bool) {
        let ([a0, a1, a2, a3], [b0, b1, b2, b3]) = (self.0, other.0);
        let (r0, c) = a0.borrowing_sub(b0, false);
        let (r1, c) = a1.borrowing_sub(b1, c);
        let (r2, c) = a2.borrowing_sub(b2, c);
        let (r3, c) = a3.borrowing_sub(b3, c);
        (U256([r0, r1, r2, r3]), c)
    }

    #[inline]
    pub fn is_zero(&self) -> bool {
        let [w0, w1, w2, w3] = self.0;
        w0 | w1 | w2 | w3 == 0
    }

    #[inline]
    pub fn low_u16(&self) -> u16 {
        self.0[0] as u16
    }

    #[inline]
    pub fn low_u32(&self) -> u32 {
        self.0[0] as u32
    }
}
