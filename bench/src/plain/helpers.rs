//! After `vm_state/helpers.rs`.
use super::VmLocalState;
use crate::machine::{CallStackEntry, DecodedOpcode, Memory, MemoryLocation, PrimitiveValue};

/// A set of errors, a bit for each.
#[derive(Clone, Copy, PartialEq, Eq, Debug)]
pub struct ErrorFlags(u64);

impl ErrorFlags {
    pub const INVALID_OPCODE: Self = ErrorFlags(1 << 0);
    pub const NOT_ENOUGH_ERGS: Self = ErrorFlags(1 << 1);
    pub const PRIVILAGED_ACCESS_NOT_FROM_KERNEL: Self = ErrorFlags(1 << 2);
    pub const WRITE_IN_STATIC_CONTEXT: Self = ErrorFlags(1 << 3);
    pub const CALLSTACK_IS_FULL: Self = ErrorFlags(1 << 4);

    #[inline]
    pub fn empty() -> Self {
        ErrorFlags(0)
    }

    #[inline]
    pub fn is_empty(self) -> bool {
        self.0 == 0
    }

    #[inline]
    pub fn insert(&mut self, other: Self) {
        self.0 |= other.0;
    }
}

impl VmLocalState<'_> {
    #[inline]
    pub fn start_frame(&mut self, context_entry: CallStackEntry) {
        self.callstack.push_entry(context_entry);
    }

    /// Closes the current frame: what it spent on pubdata goes to its caller, or is taken back where it panicked.
    #[inline]
    pub fn finish_frame(&mut self, panicked: bool) -> CallStackEntry {
        let old_frame = self.callstack.pop_entry();
        let pubdata_spent_in_new_current_frame = self.callstack.get_current_stack().total_pubdata_spent;
        let (new_pubdata_already_spent, of) = if panicked {
            (pubdata_spent_in_new_current_frame, false)
        } else {
            pubdata_spent_in_new_current_frame.overflowing_add(old_frame.total_pubdata_spent)
        };
        assert!(!of);
        self.callstack.get_current_stack_mut().total_pubdata_spent = new_pubdata_already_spent;
        let (new_revert_counter, of) = if panicked {
            self.pubdata_revert_counter.overflowing_sub(old_frame.total_pubdata_spent)
        } else {
            (self.pubdata_revert_counter, false)
        };
        assert!(!of);
        assert!(new_revert_counter >= 0);
        self.pubdata_revert_counter = new_revert_counter;
        old_frame
    }

    #[inline]
    pub fn perform_dst0_update<M: Memory>(
        &mut self,
        memory: &mut M,
        value: PrimitiveValue,
        location: Option<MemoryLocation>,
        opcode: &DecodedOpcode,
    ) {
        if let Some(location) = location {
            memory.write(self.timestamp_for_dst_write(), location, value);
        } else {
            self.update_register_value(opcode.dst0_reg_idx, value);
        }
    }

    #[inline]
    pub fn select_register_value(&self, mask_u4_value: u8) -> PrimitiveValue {
        if mask_u4_value == 0 {
            PrimitiveValue::empty()
        } else {
            self.registers[(mask_u4_value - 1) as usize]
        }
    }

    #[inline]
    pub fn update_register_value(&mut self, mask_u4_value: u8, value_to_set: PrimitiveValue) {
        if mask_u4_value > 0 {
            self.registers[(mask_u4_value - 1) as usize] = value_to_set;
        }
    }
}
