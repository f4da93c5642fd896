//! Numbers and words with their edges.

use super::Maker;
use crate::case::Word;
use crate::oracle::BUILT_WITH;
use crate::random::Random;

/// A number within 2 of `centre`, modulo 2^32.
pub fn near(random: &mut Random, centre: u32) -> u32 {
    centre.wrapping_add(random.below(5)).wrapping_sub(2)
}

/// 2^256 less the word.
pub fn negative(word: Word) -> Word {
    let mut carry = true;
    word.map(|part| {
        let (sum, overflow) = (!part).overflowing_add(carry.into());
        carry = overflow;
        sum
    })
}

impl Maker {
    /// An address in kernel mode, one that just misses it, or any.
    pub fn address(&mut self) -> [u32; 5] {
        match self.random.below(10) {
            0..4 => [0, 0, 0, 0, self.random.below(1 << 16)],
            4 => [0, 0, 0, 0, u32::from(u16::MAX)],
            5 => [0, 0, 0, 0, (1 << 16) + self.random.below(2)],
            6 => {
                let mut address = [0; 5];
                address[self.random.below(4) as usize] = 1 << self.random.below(32);
                address
            }
            _ => std::array::from_fn(|_| self.random.u32()),
        }
    }

    /// A pc, sp, handler or immediate.
    pub fn narrow(&mut self) -> u16 {
        match self.random.below(10) {
            0..3 => self.random.below(4) as u16,
            3..5 => u16::MAX - self.random.below(4) as u16,
            5 => self.random.pick(&[1 << 15, (1 << 15) - 1, 1 << 8]),
            _ => self.random.u16(),
        }
    }

    /// Any 32 bits, with their ends.
    pub fn wide(&mut self) -> u32 {
        match self.random.below(10) {
            0..2 => self.random.below(3),
            2 => u32::MAX - self.random.below(3),
            3..6 => self.random.below(10_000),
            _ => self.random.u32(),
        }
    }

    pub fn ergs(&mut self) -> u32 {
        match self.random.below(10) {
            0 => self.random.below(3),
            1 => self.random.pick(&[100, 969, 1000]),
            2 => u32::MAX - self.random.below(3),
            3..7 => self.random.below(100_000),
            _ => self.random.u32(),
        }
    }

    /// A two's complement word: both ends of 32 signed bits, around 0, and any.
    pub fn signed(&mut self) -> u32 {
        let value = match self.random.below(12) {
            0..4 => self.random.below(7) as i32 - 3,
            4 => i32::MAX - self.random.below(3) as i32,
            5 => i32::MIN + self.random.below(3) as i32,
            6..9 => self.random.below(20_000) as i32 - 10_000,
            _ => self.random.u32() as i32,
        };
        value as u32
    }

    /// A time: any, or about the last that a write or the time step allows.
    pub fn time(&mut self) -> u32 {
        match self.random.below(50) {
            0 => near(&mut self.random, u32::MAX - BUILT_WITH.time_step),
            1 => near(&mut self.random, u32::MAX - 3),
            2 => u32::MAX - self.random.below(2),
            _ => self.random.u32() >> 1,
        }
    }

    /// A word: ends of its parts, small, about what a near call can pass of `left`, or any.
    pub fn word(&mut self, left: u32) -> Word {
        let random = &mut self.random;
        let high = [random.u64(), random.u64(), random.u64()];
        match random.below(12) {
            0 => [0; 4],
            1 => [u64::MAX; 4],
            2 => [random.below(3).into(), 0, 0, 0],
            3 => [u64::MAX - u64::from(random.below(3)), u64::MAX, u64::MAX, u64::MAX],
            4 => [0, 0, 0, 1 << 63],
            5 => random.pick(&[[u64::MAX, 0, 0, 0], [u64::MAX, u64::MAX, 0, 0], [0, 1, 0, 0], [0, 0, 0, 1]]),
            6..9 => {
                let times = BUILT_WITH.multiplier.max(1);
                let low = match random.below(8) {
                    0 => random.u32(),
                    1..3 => left / times / 2,
                    3 => near(random, u32::MAX / times),
                    _ => near(random, left / times),
                };
                let upper = if random.bit() { high[0] << 32 } else { 0 };
                [upper | u64::from(low), high[0], high[1], high[2]]
            }
            9 => [random.below(1 << 17).into(), 0, 0, 0],
            _ => [random.u64(), high[0], high[1], high[2]],
        }
    }
}
