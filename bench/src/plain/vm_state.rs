//! After `vm_state/mod.rs`: the fields that the cycle uses. Counters wrap, as in the reference's release build.
use super::{Callstack, Flags};
use crate::machine::{PrimitiveValue, TIME_DELTA_PER_CYCLE, U256};

#[derive(Debug)]
pub struct VmLocalState<'a> {
    pub previous_code_word: U256,
    pub previous_code_memory_page: u32,
    pub registers: [PrimitiveValue; 15],
    pub flags: Flags,
    pub timestamp: u32,
    pub monotonic_cycle_counter: u32,
    pub pending_exception: bool,
    pub previous_super_pc: u16,
    pub callstack: Callstack<'a>,
    pub pubdata_revert_counter: i32,
}

impl VmLocalState<'_> {
    #[inline]
    pub fn execution_has_ended(&self) -> bool {
        self.callstack.is_empty()
    }

    #[inline]
    pub fn callstack_is_full(&self) -> bool {
        self.callstack.is_full()
    }

    #[inline]
    pub fn timestamp_for_code_or_src_read(&self) -> u32 {
        self.timestamp
    }

    #[inline]
    pub fn timestamp_for_dst_write(&self) -> u32 {
        self.timestamp.wrapping_add(3)
    }

    #[inline]
    pub fn increment_timestamp_after_cycle(&mut self) {
        self.timestamp = self.timestamp.wrapping_add(TIME_DELTA_PER_CYCLE);
    }
}

#[derive(Default, Debug)]
pub struct DelayedLocalStateChanges {
    pub new_ergs_remaining: Option<u32>,
    pub new_previous_code_word: Option<U256>,
    pub new_previous_super_pc: Option<u16>,
    pub new_pending_exception: Option<bool>,
    pub new_previous_code_memory_page: Option<u32>,
}

impl DelayedLocalStateChanges {
    #[inline(always)]
    pub fn apply(self, local_state: &mut VmLocalState) {
        if let Some(ergs_remaining) = self.new_ergs_remaining {
            local_state.callstack.get_current_stack_mut().ergs_remaining = ergs_remaining;
        }
        if let Some(previous_code_word) = self.new_previous_code_word {
            local_state.previous_code_word = previous_code_word;
        }
        if let Some(previous_super_pc) = self.new_previous_super_pc {
            local_state.previous_super_pc = previous_super_pc;
        }
        if let Some(new_pending_exception) = self.new_pending_exception {
            local_state.pending_exception = new_pending_exception;
        }
        if let Some(new_previous_code_memory_page) = self.new_previous_code_memory_page {
            local_state.previous_code_memory_page = new_previous_code_memory_page;
        }
    }
}
