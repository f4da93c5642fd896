//! After `opcodes/execution/ret.rs`, for a local frame: it returns no data, so that the source operand is not looked at.
use super::VmLocalState;
use crate::machine::{DecodedOpcode, RetOpcode};

impl DecodedOpcode {
    #[inline(always)]
    pub fn ret_opcode_apply(&self, vm_state: &mut VmLocalState) {
        let inner_variant = self.ret;
        vm_state.flags.reset();
        let current_callstack = vm_state.callstack.get_current_stack();
        assert!(current_callstack.is_local_frame);
        let ergs_remaining = current_callstack.ergs_remaining;

        let panicked = inner_variant == RetOpcode::Revert || inner_variant == RetOpcode::Panic;
        let finished_callstack = vm_state.finish_frame(panicked);

        let next_context = vm_state.callstack.get_current_stack_mut();
        next_context.ergs_remaining = next_context.ergs_remaining.wrapping_add(ergs_remaining);
        if self.to_label {
            next_context.pc = self.imm_0;
        } else if panicked {
            next_context.pc = finished_callstack.exception_handler_location;
        }

        assert!(finished_callstack.heap_bound >= next_context.heap_bound);
        assert!(finished_callstack.aux_heap_bound >= next_context.aux_heap_bound);
        next_context.heap_bound = finished_callstack.heap_bound;
        next_context.aux_heap_bound = finished_callstack.aux_heap_bound;

        if inner_variant == RetOpcode::Panic {
            vm_state.flags.overflow_or_less_than_flag = true;
        }
    }
}
