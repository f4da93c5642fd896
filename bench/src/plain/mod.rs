//! The cycle of docs/src in plain Rust, for near call, add, sub, nop and a return from a local frame: its functions in its order, with
//! its names and its checks, and the frames in an array.
//!
//! Parsing, memory, logs, tracers and block properties are the caller's.
mod add;
mod cycle;
mod execution_stack;
mod flags;
mod helpers;
mod mem_ops;
mod near_call;
mod parsing;
mod ret;
mod sub;
mod vm_state;

use crate::machine::*;
use execution_stack::Callstack;
use flags::Flags;
pub use vm_state::VmLocalState;

pub struct Plain;

impl Program for Plain {
    /// The registers are in the machine.
    type Apart = ();
    type Machine<'a> = VmLocalState<'a>;

    #[inline(always)]
    fn new<'a>(state: State, current: CallStackEntry, _: &'a mut (), frames: &'a mut [CallStackEntry]) -> VmLocalState<'a> {
        let [overflow_or_less_than_flag, equality_flag, greater_than_flag] = state.flags;
        VmLocalState {
            previous_code_word: state.previous_code_word,
            previous_code_memory_page: state.previous_code_memory_page,
            registers: [PrimitiveValue::empty(); 15],
            flags: Flags {
                overflow_or_less_than_flag,
                equality_flag,
                greater_than_flag,
            },
            timestamp: state.timestamp,
            monotonic_cycle_counter: state.monotonic_cycle_counter,
            pending_exception: state.pending_exception,
            previous_super_pc: state.previous_super_pc,
            callstack: Callstack {
                current,
                inner: frames,
                depth: state.depth,
                max_depth: state.max_depth,
            },
            pubdata_revert_counter: state.pubdata_revert_counter,
        }
    }

    #[inline(always)]
    fn cycle<M: Memory, const BY_VALUE: bool>(vm: &mut VmLocalState, memory: &mut M, records: Masked) -> u32 {
        vm.cycle::<M, BY_VALUE>(memory, records)
    }

    #[inline(always)]
    fn register_mut<'v>(vm: &'v mut VmLocalState<'_>, number: usize) -> &'v mut PrimitiveValue {
        &mut vm.registers[number - 1]
    }

    #[inline(always)]
    fn state(vm: &VmLocalState) -> State {
        let flags = vm.flags;
        State {
            previous_code_word: vm.previous_code_word,
            previous_code_memory_page: vm.previous_code_memory_page,
            previous_super_pc: vm.previous_super_pc,
            flags: [flags.overflow_or_less_than_flag, flags.equality_flag, flags.greater_than_flag],
            timestamp: vm.timestamp,
            monotonic_cycle_counter: vm.monotonic_cycle_counter,
            pending_exception: vm.pending_exception,
            pubdata_revert_counter: vm.pubdata_revert_counter,
            depth: vm.callstack.depth(),
            max_depth: vm.callstack.max_depth,
        }
    }

    #[inline(always)]
    fn current<'v>(vm: &'v VmLocalState<'_>) -> &'v CallStackEntry {
        vm.callstack.get_current_stack()
    }
}
