//! Registers, error flags and the end of a frame, after `helpers.rs`.
use super::VmState;
use crate::machine::PrimitiveValue;

/// The bits of `ErrorFlags`.
pub const INVALID_OPCODE: u64 = 1 << 0;
pub const NOT_ENOUGH_ERGS: u64 = 1 << 1;
pub const PRIVILAGED_ACCESS_NOT_FROM_KERNEL: u64 = 1 << 2;
pub const WRITE_IN_STATIC_CONTEXT: u64 = 1 << 3;
pub const CALLSTACK_IS_FULL: u64 = 1 << 4;

/// What a pointer leaves in a place that may not hold one: its two low words are metadata.
#[inline(always)]
pub fn erase_fat_pointer_metadata(value: &mut PrimitiveValue) {
    value.value.0[0] = 0;
    value.value.0[1] = 0;
    value.is_pointer = false;
}

impl VmState<'_> {
    #[inline(always)]
    pub(super) fn select_register_value(&self, mask_u4_value: u8) -> &PrimitiveValue {
        &self.registers[(mask_u4_value & 15) as usize]
    }

    #[inline(always)]
    pub(super) fn update_register_value(&mut self, mask_u4_value: u8, value: PrimitiveValue) {
        if mask_u4_value > 0 {
            self.registers[(mask_u4_value & 15) as usize] = value;
        }
    }
}

/// `finish_frame`'s counters: what the caller has spent then, and the revert counter.
#[inline(always)]
pub fn finish_frame(panicked: bool, caller_spent: i32, closed_spent: i32, revert_counter: i32) -> (i32, i32) {
    let (spent, of) = if panicked {
        (caller_spent, false)
    } else {
        caller_spent.overflowing_add(closed_spent)
    };
    assert!(!of);
    let (counter, of) = if panicked {
        revert_counter.overflowing_sub(closed_spent)
    } else {
        (revert_counter, false)
    };
    assert!(!of);
    assert!(counter >= 0);
    (spent, counter)
}
