//! After `opcodes/execution/sub.rs`.
use super::cycle::PreState;
use super::VmLocalState;
use crate::machine::{DecodedOpcode, Memory, PrimitiveValue};

impl DecodedOpcode {
    #[inline(always)]
    pub fn sub_opcode_apply<M: Memory>(&self, vm_state: &mut VmLocalState, memory: &mut M, prestate: PreState) {
        let PreState {
            src0,
            src1,
            dst0_mem_location,
            new_pc,
        } = prestate;
        vm_state.callstack.get_current_stack_mut().pc = new_pc;
        let (result, of) = src0.value.overflowing_sub(src1.value);
        let eq = result.is_zero();
        let gt = !eq && !of;
        if self.set_flags {
            vm_state.flags.reset();
            vm_state.flags.overflow_or_less_than_flag = of;
            vm_state.flags.equality_flag = eq;
            vm_state.flags.greater_than_flag = gt;
        }
        vm_state.perform_dst0_update(memory, PrimitiveValue::from_value(result), dst0_mem_location, self);
    }
}
