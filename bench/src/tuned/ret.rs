//! After `ret.rs`, for a local frame: nothing is returned but ergs and heap bounds.
use super::helpers::finish_frame;
use super::{Flags, VmState};
use crate::machine::{DecodedOpcode, RetOpcode};

impl VmState<'_> {
    #[inline(always)]
    pub(super) fn ret_opcode_apply(&mut self, op: &DecodedOpcode) {
        let panicked = op.ret != RetOpcode::Ok;
        let (closed, caller) = self.callstack.pop_entry();
        assert!(closed.is_local_frame);
        let (spent, counter) = finish_frame(
            panicked,
            caller.total_pubdata_spent,
            closed.total_pubdata_spent,
            self.pubdata_revert_counter,
        );
        caller.total_pubdata_spent = spent;
        self.pubdata_revert_counter = counter;
        caller.ergs_remaining = caller.ergs_remaining.wrapping_add(closed.ergs_remaining);
        if op.to_label {
            caller.pc = op.imm_0;
        } else if panicked {
            caller.pc = closed.exception_handler_location;
        }
        assert!(closed.heap_bound >= caller.heap_bound);
        assert!(closed.aux_heap_bound >= caller.aux_heap_bound);
        caller.heap_bound = closed.heap_bound;
        caller.aux_heap_bound = closed.aux_heap_bound;
        self.flags = Flags::new(op.ret == RetOpcode::Panic, false, false);
    }
}
