//! What near call and return read from src0.

use crate::define_bitflags;
use crate::ethereum_types::U256;

pub struct NearCallABI {
    pub ergs_passed: u32,
}

impl NearCallABI {
    pub fn from_u256(src0: U256) -> Self {
        Self {
            ergs_passed: src0.low_u64() as u32,
        }
    }
}

/// Only a return from a far frame looks at these, and that is outside the domain: they hold nothing of src0.
pub struct RetABI {
    pub memory_quasi_fat_pointer: FatPointer,
    pub page_forwarding_mode: RetForwardPageType,
}

impl RetABI {
    pub fn from_u256(_: U256) -> Self {
        Self {
            memory_quasi_fat_pointer: FatPointer::empty(),
            page_forwarding_mode: RetForwardPageType::UseHeap,
        }
    }
}

#[derive(Clone, Copy, Debug, PartialEq, Eq)]
pub enum RetForwardPageType {
    UseHeap,
    ForwardFatPointer,
    UseAuxHeap,
}

#[derive(Clone, Copy, Debug, PartialEq, Eq)]
pub struct FatPointer {
    pub offset: u32,
    pub memory_page: u32,
    pub start: u32,
    pub length: u32,
}

impl FatPointer {
    pub const fn empty() -> Self {
        Self {
            offset: 0,
            memory_page: 0,
            start: 0,
            length: 0,
        }
    }

    pub fn validate(&self, _is_fresh: bool) -> FatPointerValidationException {
        FatPointerValidationException::empty()
    }

    pub fn validate_as_slice(&self) -> bool {
        true
    }

    pub fn to_u256(self) -> U256 {
        U256::zero()
    }
}

define_bitflags! {
    #[derive(Clone, Copy, Debug, PartialEq, Eq)]
    pub struct FatPointerValidationException: u64 {
        const DEREF_BEYOND_HEAP_RANGE = 1;
    }
}
