//! After `opcodes/execution/near_call.rs`.
use super::cycle::PreState;
use super::VmLocalState;
use crate::machine::{DecodedOpcode, ERGS_CONVERSION};

impl DecodedOpcode {
    #[inline(always)]
    pub fn near_call_opcode_apply(&self, vm_state: &mut VmLocalState, prestate: PreState) {
        let PreState { src0, new_pc, .. } = prestate;
        vm_state.flags.reset();

        let ergs_passed = src0.value.low_u32().saturating_mul(ERGS_CONVERSION);
        let pass_all_ergs = ergs_passed == 0;
        let remaining_ergs = vm_state.callstack.get_current_stack().ergs_remaining;
        let (passed_ergs, remaining_ergs_for_this_context) = if pass_all_ergs {
            (remaining_ergs, 0)
        } else {
            match remaining_ergs.checked_sub(ergs_passed) {
                Some(remaining_for_this_context) => (ergs_passed, remaining_for_this_context),
                None => (remaining_ergs, 0),
            }
        };

        let current_stack = vm_state.callstack.get_current_stack_mut();
        current_stack.ergs_remaining = remaining_ergs_for_this_context;
        current_stack.pc = new_pc;

        let mut new_stack = *current_stack;
        new_stack.pc = self.imm_0;
        new_stack.exception_handler_location = self.imm_1;
        new_stack.ergs_remaining = passed_ergs;
        new_stack.is_local_frame = true;
        new_stack.total_pubdata_spent = 0;
        vm_state.start_frame(new_stack);
    }
}
