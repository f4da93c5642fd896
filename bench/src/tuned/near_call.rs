//! After `near_call.rs`.
use super::{Flags, VmState};
use crate::machine::{DecodedOpcode, ERGS_CONVERSION};

/// What the opened frame gets of what is held, and what its caller keeps.
#[inline(always)]
fn divide_ergs(held: u32, want: u32) -> (u32, u32) {
    let want = want.saturating_mul(ERGS_CONVERSION);
    if want == 0 || want > held {
        (held, 0)
    } else {
        (want, held - want)
    }
}

impl VmState<'_> {
    #[inline(always)]
    pub(super) fn near_call_opcode_apply(&mut self, op: &DecodedOpcode, first: usize, new_pc: u16) {
        self.flags = Flags::default();
        let (src0, _) = self.sources(op, first);
        let want = self.erased(src0, op.src0_can_be_pointer).low_u32();
        let caller = self.callstack.get_current_stack_mut();
        let (passed, kept) = divide_ergs(caller.ergs_remaining, want);
        caller.ergs_remaining = kept;
        caller.pc = new_pc;
        let opened = self.callstack.push_copy();
        opened.pc = op.imm_0;
        opened.exception_handler_location = op.imm_1;
        opened.ergs_remaining = passed;
        opened.is_local_frame = true;
        opened.total_pubdata_spent = 0;
    }
}
