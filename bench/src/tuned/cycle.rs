//! After `cycle.rs`.
use super::helpers::*;
use super::*;
use std::hint::cold_path;

/// For each condition the flags that meet it: bit `f` is for the flags whose bits are `f`.
const MET: [u8; 8] = {
    let (lt, eq, gt) = (0b1010_1010, 0b1100_1100, 0b1111_0000);
    [0xff, gt, lt, eq, gt | eq, lt | eq, !eq, gt | lt]
};

impl Flags {
    /// Whether an instruction with this condition is carried out.
    #[inline(always)]
    fn meet(self, condition: Condition) -> bool {
        condition == Condition::Always || MET[condition as usize] >> (self.bits() & 7) & 1 != 0
    }
}

impl VmState<'_> {
    /// The code read of `read_and_decode`; the bits of the instruction, which the caller has parsed.
    #[inline(always)]
    fn fetch<M: Memory>(&mut self, memory: &mut M) -> u64 {
        let frame = self.callstack.get_current_stack();
        let (page, super_pc, sub_pc) = (frame.code_page, frame.pc >> 2, frame.pc & 3);
        if page != self.previous_code_memory_page || super_pc != self.previous_super_pc {
            let location = MemoryLocation {
                memory_type: MemoryType::Code,
                page,
                index: super_pc as u32,
            };
            self.previous_code_word = memory.read_code(self.timestamp, location);
            self.previous_super_pc = super_pc;
            self.previous_code_memory_page = page;
        }
        self.pending_exception = false;
        self.previous_code_word.0[3 - sub_pc as usize]
    }

    /// The flags of `ErrorFlags` for a plain instruction, but for the one about ergs.
    #[inline(always)]
    fn error_flags(&self, plain: &DecodedOpcode) -> u64 {
        let frame = self.callstack.get_current_stack();
        let mut errors = 0;
        if plain.is_explicit_panic {
            errors |= INVALID_OPCODE;
        }
        if plain.requires_kernel_mode && !frame.is_kernel_mode() {
            errors |= PRIVILAGED_ACCESS_NOT_FROM_KERNEL;
        }
        if !plain.can_be_used_in_static_context && frame.is_static {
            errors |= WRITE_IN_STATIC_CONTEXT;
        }
        if self.callstack.is_full() {
            errors |= CALLSTACK_IS_FULL;
        }
        errors
    }

    /// Charges, and chooses the instruction that is carried out.
    #[inline(always)]
    fn decode<'r, const ENDED: bool>(&mut self, records: Masked<'r>) -> (&'r DecodedOpcode, u32) {
        let plain = records.plain;
        let mut errors = self.error_flags(plain);
        let cost = if ENDED { 0 } else { plain.ergs_cost };
        let frame = self.callstack.get_current_stack_mut();
        let held = frame.ergs_remaining;
        let (mut left, not_enough) = held.overflowing_sub(cost);
        if not_enough {
            cold_path();
            left = 0;
            errors |= NOT_ENOUGH_ERGS;
        }
        frame.ergs_remaining = left;
        let op = if errors != 0 {
            records.panic
        } else if self.flags.meet(plain.condition) {
            plain
        } else {
            records.nop
        };
        (op, held - left)
    }

    /// A cycle, for one of the two cases of `skip_cycle`.
    #[inline(always)]
    fn stages<M: Memory, const ENDED: bool, const BY_VALUE: bool>(&mut self, memory: &mut M, records: Masked) -> u32 {
        if !ENDED {
            self.fetch(memory);
        }
        let (op, charge) = self.decode::<ENDED>(records);
        let copy;
        let op = if BY_VALUE {
            copy = *op;
            &copy
        } else {
            op
        };
        let mut first = (op.src0_reg_idx & 15) as usize;
        let mut dst0 = None;
        if op.src0_operand_type as u8 | op.dst0_operand_type as u8 != 0 {
            (first, dst0) = self.operands(memory, op);
        }
        let frame = self.callstack.get_current_stack_mut();
        let new_pc = if ENDED { frame.pc } else { frame.pc.wrapping_add(1) };
        match op.opcode {
            Opcode::Nop => frame.pc = new_pc,
            Opcode::Add => {
                frame.pc = new_pc;
                self.add_opcode_apply(memory, op, first, dst0);
            }
            Opcode::Sub => {
                frame.pc = new_pc;
                self.sub_opcode_apply(memory, op, first, dst0);
            }
            Opcode::NearCall => self.near_call_opcode_apply(op, first, new_pc),
            Opcode::Ret => self.ret_opcode_apply(op),
        }
        if !ENDED {
            self.timestamp = self.timestamp.wrapping_add(TIME_DELTA_PER_CYCLE);
        }
        self.monotonic_cycle_counter = self.monotonic_cycle_counter.wrapping_add(1);
        charge
    }

    /// The cycles after the end: they cost nothing and read no code.
    #[inline(always)]
    fn ended_cycle<M: Memory, const BY_VALUE: bool>(&mut self, memory: &mut M, records: Masked) -> u32 {
        assert!(!self.pending_exception);
        self.previous_code_memory_page = self.callstack.get_current_stack().code_page;
        self.stages::<M, true, BY_VALUE>(memory, records)
    }

    /// One cycle; the ergs that it charged. `BY_VALUE`: the instruction that is carried out is copied. That is faster where the
    /// compiler knows most of its fields, and slower where it lies in memory.
    #[inline(always)]
    pub fn cycle<M: Memory, const BY_VALUE: bool>(&mut self, memory: &mut M, records: Masked) -> u32 {
        if self.callstack.is_empty() {
            cold_path();
            return self.ended_cycle::<M, BY_VALUE>(memory, records);
        }
        self.stages::<M, false, BY_VALUE>(memory, records)
    }
}
