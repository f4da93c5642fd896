//! Prices. The absolute number of an instruction is its record's price here, so the price at a number is that number.

use std::cell::OnceCell;
use std::ops::Index;

#[derive(Clone, Copy, Debug)]
pub struct AbsoluteNumber(pub(crate) u32);

impl AbsoluteNumber {
    pub fn into_usize(self) -> usize {
        self.0 as usize
    }
}

pub struct Prices(OnceCell<u32>);

/// A constant, not a static: each use is a value of its own, whose cell holds the one price asked for.
#[allow(clippy::declare_interior_mutable_const)]
pub const OPCODES_PRICES: Prices = Prices(OnceCell::new());

impl Index<usize> for Prices {
    type Output = u32;

    fn index(&self, number: usize) -> &u32 {
        self.0.get_or_init(|| number as u32)
    }
}
