//! 256-bit words and addresses.

/// Four words of 64 bits, the lowest first.
#[derive(Clone, Copy, Debug, Default, PartialEq, Eq, Hash)]
pub struct U256(pub [u64; 4]);

impl U256 {
    pub const fn zero() -> Self {
        Self([0; 4])
    }

    pub fn is_zero(&self) -> bool {
        self.0 == [0; 4]
    }

    pub const fn low_u64(&self) -> u64 {
        self.0[0]
    }

    /// The sum modulo 2^256, and whether it is another than the sum.
    pub fn overflowing_add(self, other: Self) -> (Self, bool) {
        self.word_by_word(other, u64::overflowing_add)
    }

    /// The difference modulo 2^256, and whether it is another than the difference.
    pub fn overflowing_sub(self, other: Self) -> (Self, bool) {
        self.word_by_word(other, u64::overflowing_sub)
    }

    fn word_by_word(self, other: Self, step: fn(u64, u64) -> (u64, bool)) -> (Self, bool) {
        let mut words = [0; 4];
        let mut carry = false;
        for (i, word) in words.iter_mut().enumerate() {
            let (partial, first) = step(self.0[i], other.0[i]);
            let (whole, second) = step(partial, carry.into());
            *word = whole;
            carry = first | second;
        }
        (Self(words), carry)
    }

    pub fn to_big_endian(&self, bytes: &mut [u8; 32]) {
        for (place, word) in bytes.chunks_exact_mut(8).zip(self.0.iter().rev()) {
            place.copy_from_slice(&word.to_be_bytes());
        }
    }
}

impl From<u64> for U256 {
    fn from(value: u64) -> Self {
        Self([value, 0, 0, 0])
    }
}

/// Twenty bytes, the highest first.
#[derive(Clone, Copy, Debug, Default, PartialEq, Eq, Hash)]
pub struct Address(pub [u8; 20]);

impl Address {
    pub const fn zero() -> Self {
        Self([0; 20])
    }

    pub const fn as_fixed_bytes(&self) -> &[u8; 20] {
        &self.0
    }
}
