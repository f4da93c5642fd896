//! After `add.rs`, `sub.rs` and `perform_dst0_update` of `helpers.rs`.
use super::{Flags, VmState};
use crate::machine::{DecodedOpcode, Memory, MemoryLocation, PrimitiveValue, U256};

impl VmState<'_> {
    #[inline(always)]
    fn operand_values(&self, op: &DecodedOpcode, first: usize) -> (U256, U256) {
        let (src0, src1) = self.sources(op, first);
        (self.erased(src0, op.src0_can_be_pointer), self.erased(src1, op.src1_can_be_pointer))
    }

    #[inline(always)]
    fn store_result<M: Memory>(&mut self, memory: &mut M, op: &DecodedOpcode, (result, of): (U256, bool), dst0: Option<MemoryLocation>) {
        if op.set_flags {
            let eq = result.is_zero();
            self.flags = Flags::new(of, eq, !eq & !of);
        }
        let value = PrimitiveValue::from_value(result);
        match dst0 {
            Some(location) => memory.write(self.timestamp.wrapping_add(3), location, value),
            None => self.update_register_value(op.dst0_reg_idx, value),
        }
    }

    #[inline(always)]
    pub(super) fn add_opcode_apply<M: Memory>(&mut self, memory: &mut M, op: &DecodedOpcode, first: usize, dst0: Option<MemoryLocation>) {
        let (src0, src1) = self.operand_values(op, first);
        self.store_result(memory, op, src0.overflowing_add(src1), dst0);
    }

    #[inline(always)]
    pub(super) fn sub_opcode_apply<M: Memory>(&mut self, memory: &mut M, op: &DecodedOpcode, first: usize, dst0: Option<MemoryLocation>) {
        let (src0, src1) = self.operand_values(op, first);
        self.store_result(memory, op, src0.overflowing_sub(src1), dst0);
    }
}
