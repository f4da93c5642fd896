//! What the two Rust programs, `plain` and `tuned`, have in common: values, instructions, frames, the memory behind a machine, and
//! how a machine is set up and looked at. Names are those of docs/src.
mod frame;
mod record;
mod u256;

pub use frame::{stack_page_from_base, CallStackEntry};
pub use record::{Condition, DecodedOpcode, Masked, Opcode, Operand, RetOpcode};
pub use u256::U256;

/// `TIME_DELTA_PER_CYCLE` and `INTERNAL_ERGS_TO_VISIBLE_ERGS_CONVERSION_CONSTANT`.
pub const TIME_DELTA_PER_CYCLE: u32 = 4;
pub const ERGS_CONVERSION: u32 = 1;

/// The numbers of the registers that can be written; register 0 is always empty.
pub const REGISTERS: [usize; 15] = [1, 2, 3, 4, 5, 6, 7, 8, 9, 10, 11, 12, 13, 14, 15];

/// After `vm_state/mod.rs`.
#[derive(Clone, Copy, Default, Debug)]
pub struct PrimitiveValue {
    pub value: U256,
    pub is_pointer: bool,
}

impl PrimitiveValue {
    #[inline]
    pub const fn empty() -> Self {
        Self::from_value(U256::zero())
    }

    #[inline]
    pub const fn from_value(value: U256) -> Self {
        PrimitiveValue { value, is_pointer: false }
    }
}

#[derive(Clone, Copy, PartialEq, Eq, Debug)]
pub enum MemoryType {
    Stack,
    Code,
}

#[derive(Clone, Copy, PartialEq, Eq, Debug)]
pub struct MemoryLocation {
    pub memory_type: MemoryType,
    pub page: u32,
    pub index: u32,
}

/// The memories behind a machine, with the time of each query: the word that fetch reads, and a source operand's, from stack or code.
pub trait Memory {
    fn read_code(&mut self, timestamp: u32, location: MemoryLocation) -> U256;
    fn read(&mut self, timestamp: u32, location: MemoryLocation) -> PrimitiveValue;
    fn write(&mut self, timestamp: u32, location: MemoryLocation, value: PrimitiveValue);
}

/// A machine but for registers and frames. The flags are less than, equal and greater than.
#[derive(Clone, Copy, Default, Debug)]
pub struct State {
    pub previous_code_word: U256,
    pub previous_code_memory_page: u32,
    pub previous_super_pc: u16,
    pub flags: [bool; 3],
    pub timestamp: u32,
    pub monotonic_cycle_counter: u32,
    pub pending_exception: bool,
    pub pubdata_revert_counter: i32,
    pub depth: usize,
    pub max_depth: usize,
}

/// One of the two programs.
pub trait Program {
    /// The registers, where a machine has them apart from the rest.
    type Apart: Default;
    type Machine<'a>;

    /// A machine with empty registers. Its saved frames, the oldest first, are the first of `frames`, which are one more than the limit.
    fn new<'a>(state: State, current: CallStackEntry, apart: &'a mut Self::Apart, frames: &'a mut [CallStackEntry]) -> Self::Machine<'a>;

    /// One cycle; the ergs that it charged. `BY_VALUE`: the instruction that is carried out is a copy, not behind a reference.
    fn cycle<M: Memory, const BY_VALUE: bool>(vm: &mut Self::Machine<'_>, memory: &mut M, records: Masked) -> u32;

    /// The register of that number, one of `REGISTERS`.
    fn register_mut<'v>(vm: &'v mut Self::Machine<'_>, number: usize) -> &'v mut PrimitiveValue;

    fn state(vm: &Self::Machine<'_>) -> State;

    fn current<'v>(vm: &'v Self::Machine<'_>) -> &'v CallStackEntry;
}
