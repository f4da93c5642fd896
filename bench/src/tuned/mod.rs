//! The same cycles as in `plain`, restructured by hand for speed, without regard to the shape of docs/src.
//!
//! Parsing, memory and the log of queries are the caller's. What the reference asserts is asserted here.
mod arithmetic;
mod cycle;
mod execution_stack;
mod helpers;
mod mem_ops;
mod near_call;
mod operands;
mod ret;

use crate::machine::*;
use execution_stack::Callstack;

/// After `flags.rs`, a bit for each flag: a reset is one store, and a condition is looked up.
#[derive(Clone, Copy, Default, PartialEq, Eq, Debug)]
struct Flags(u8);

impl Flags {
    #[inline(always)]
    fn new(overflow_or_less_than: bool, equality: bool, greater_than: bool) -> Self {
        Flags(overflow_or_less_than as u8 | (equality as u8) << 1 | (greater_than as u8) << 2)
    }

    #[inline(always)]
    fn bits(self) -> u8 {
        self.0
    }
}

/// The place beside the registers of a source that is not in one.
const SOURCE: usize = 16;

/// After `vm_state/mod.rs`: what the stages use of `VmLocalState`. Registers and frames lie elsewhere, so that the rest can be held in
/// the processor's registers. Register 0 is always empty, so that reading a register never branches.
#[derive(Debug)]
pub struct VmState<'a> {
    previous_code_word: U256,
    previous_code_memory_page: u32,
    previous_super_pc: u16,
    registers: &'a mut [PrimitiveValue; 17],
    flags: Flags,
    timestamp: u32,
    monotonic_cycle_counter: u32,
    pending_exception: bool,
    callstack: Callstack<'a>,
    pubdata_revert_counter: i32,
}

pub struct Tuned;

impl Program for Tuned {
    type Apart = [PrimitiveValue; 17];
    type Machine<'a> = VmState<'a>;

    #[inline(always)]
    fn new<'a>(
        state: State,
        current: CallStackEntry,
        registers: &'a mut [PrimitiveValue; 17],
        frames: &'a mut [CallStackEntry],
    ) -> VmState<'a> {
        let [lt, eq, gt] = state.flags;
        frames[state.depth] = current;
        VmState {
            previous_code_word: state.previous_code_word,
            previous_code_memory_page: state.previous_code_memory_page,
            previous_super_pc: state.previous_super_pc,
            registers,
            flags: Flags::new(lt, eq, gt),
            timestamp: state.timestamp,
            monotonic_cycle_counter: state.monotonic_cycle_counter,
            pending_exception: state.pending_exception,
            callstack: Callstack {
                frames,
                depth: state.depth,
                max_depth: state.max_depth,
            },
            pubdata_revert_counter: state.pubdata_revert_counter,
        }
    }

    #[inline(always)]
    fn cycle<M: Memory, const BY_VALUE: bool>(vm: &mut VmState, memory: &mut M, records: Masked) -> u32 {
        vm.cycle::<M, BY_VALUE>(memory, records)
    }

    #[inline(always)]
    fn register_mut<'v>(vm: &'v mut VmState<'_>, number: usize) -> &'v mut PrimitiveValue {
        &mut vm.registers[number]
    }

    #[inline(always)]
    fn state(vm: &VmState) -> State {
        State {
            previous_code_word: vm.previous_code_word,
            previous_code_memory_page: vm.previous_code_memory_page,
            previous_super_pc: vm.previous_super_pc,
            flags: [0, 1, 2].map(|bit| vm.flags.bits() >> bit & 1 != 0),
            timestamp: vm.timestamp,
            monotonic_cycle_counter: vm.monotonic_cycle_counter,
            pending_exception: vm.pending_exception,
            pubdata_revert_counter: vm.pubdata_revert_counter,
            depth: vm.callstack.depth,
            max_depth: vm.callstack.max_depth,
        }
    }

    #[inline(always)]
    fn current<'v>(vm: &'v VmState<'_>) -> &'v CallStackEntry {
        vm.callstack.get_current_stack()
    }
}
