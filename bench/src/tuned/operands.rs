//! The operands of an instruction, after the middle part of `cycle.rs`.
use super::helpers::erase_fat_pointer_metadata;
use super::mem_ops::compute_address;
use super::*;
use std::hint::cold_path;

impl VmState<'_> {
    /// The operands that are not in registers: both addresses, the source first, with sp moved, and the source's value put in its place.
    #[inline(always)]
    pub(super) fn operands<M: Memory>(&mut self, memory: &mut M, op: &DecodedOpcode) -> (usize, Option<MemoryLocation>) {
        let low0 = self.select_register_value(op.src0_reg_idx).value.low_u16();
        let low1 = self.select_register_value(op.dst0_reg_idx).value.low_u16();
        let frame = self.callstack.get_current_stack_mut();
        let mut sp = frame.sp;
        let src0_at = compute_address(frame, &mut sp, low0, op.imm_0, op.src0_operand_type, false);
        let dst0_at = compute_address(frame, &mut sp, low1, op.imm_1, op.dst0_operand_type, true);
        frame.sp = sp;
        if op.src0_operand_type == Operand::UseRegOnly {
            return ((op.src0_reg_idx & 15) as usize, dst0_at);
        }
        self.registers[SOURCE] = match src0_at {
            None => PrimitiveValue::from_value(U256::from_u64(op.imm_0 as u64)),
            Some(_) if op.opcode == Opcode::Nop => PrimitiveValue::empty(),
            Some(location) => memory.read(self.timestamp, location),
        };
        (SOURCE, dst0_at)
    }

    /// The operands after the swap.
    #[inline(always)]
    pub(super) fn sources(&self, op: &DecodedOpcode, first: usize) -> (&PrimitiveValue, &PrimitiveValue) {
        let first = &self.registers[first];
        let second = self.select_register_value(op.src1_reg_idx);
        if op.swap_operands {
            cold_path();
            (second, first)
        } else {
            (first, second)
        }
    }

    /// The value without the metadata of a pointer in a place that may not hold one.
    #[inline(always)]
    pub(super) fn erased(&self, value: &PrimitiveValue, can_be_pointer: bool) -> U256 {
        let mut value = *value;
        if value.is_pointer && !can_be_pointer && !self.callstack.get_current_stack().is_kernel_mode() {
            cold_path();
            erase_fat_pointer_metadata(&mut value);
        }
        value.value
    }
}
