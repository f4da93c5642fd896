//! After `vm_state/cycle.rs`.
use super::helpers::ErrorFlags;
use super::mem_ops::MemOpsProcessor;
use super::parsing::Decoded;
use super::vm_state::DelayedLocalStateChanges;
use super::{Flags, VmLocalState};
use crate::machine::*;

pub struct PreState {
    pub src0: PrimitiveValue,
    pub src1: PrimitiveValue,
    pub dst0_mem_location: Option<MemoryLocation>,
    pub new_pc: u16,
}

const OPCODES_PER_WORD_LOG_2: usize = 2;
const OPCODES_PER_WORD: usize = 1 << OPCODES_PER_WORD_LOG_2;

#[inline]
fn super_and_sub_pc_from_pc(pc: u16) -> (u16, u8) {
    (pc >> OPCODES_PER_WORD_LOG_2, (pc & (OPCODES_PER_WORD as u16 - 1)) as u8)
}

#[inline]
fn read_and_cache_opcode<M: Memory>(
    local_state: &VmLocalState,
    memory: &mut M,
    super_pc: u16,
    delayed_changes: &mut DelayedLocalStateChanges,
) -> U256 {
    let location = MemoryLocation {
        memory_type: MemoryType::Code,
        page: local_state.callstack.get_current_stack().code_page,
        index: super_pc as u32,
    };
    let u256_word = memory.read_code(local_state.timestamp_for_code_or_src_read(), location);
    delayed_changes.new_previous_code_word = Some(u256_word);
    delayed_changes.new_previous_super_pc = Some(super_pc);
    u256_word
}

/// The first part of `read_and_decode`: the bits of the instruction, which the caller has parsed; none where the reference puts a
/// panic or a nop.
#[inline(always)]
fn read_opcode<M: Memory>(local_state: &VmLocalState, memory: &mut M, delayed_changes: &mut DelayedLocalStateChanges) -> Option<u64> {
    let execution_has_ended = local_state.execution_has_ended();
    let pending_exception = local_state.pending_exception;
    let current_stack = local_state.callstack.get_current_stack();
    delayed_changes.new_previous_code_memory_page = Some(current_stack.code_page);
    let code_pages_are_different = current_stack.code_page != local_state.previous_code_memory_page;
    let (super_pc, sub_pc) = super_and_sub_pc_from_pc(current_stack.pc);
    let refresh_opcode_cache = code_pages_are_different || local_state.previous_super_pc != super_pc;

    if !execution_has_ended && !pending_exception {
        let u256_word = if refresh_opcode_cache {
            read_and_cache_opcode(local_state, memory, super_pc, delayed_changes)
        } else {
            local_state.previous_code_word
        };
        // The first instruction of a word is its highest part.
        Some(u256_word.0[OPCODES_PER_WORD - 1 - sub_pc as usize])
    } else if pending_exception {
        assert!(!execution_has_ended);
        if refresh_opcode_cache {
            read_and_cache_opcode(local_state, memory, super_pc, delayed_changes);
        }
        delayed_changes.new_pending_exception = Some(false);
        None
    } else {
        None
    }
}

/// The exceptions that are looked for before execution, but for the one about ergs.
#[inline(always)]
fn check_exceptions(local_state: &VmLocalState, opcode: &DecodedOpcode, error_flags: &mut ErrorFlags) {
    let current_stack = local_state.callstack.get_current_stack();
    let is_kernel = current_stack.is_kernel_mode();
    if opcode.is_explicit_panic {
        error_flags.insert(ErrorFlags::INVALID_OPCODE);
    }
    if opcode.requires_kernel_mode && !is_kernel {
        error_flags.insert(ErrorFlags::PRIVILAGED_ACCESS_NOT_FROM_KERNEL);
    }
    if !opcode.can_be_used_in_static_context && current_stack.is_static {
        error_flags.insert(ErrorFlags::WRITE_IN_STATIC_CONTEXT);
    }
    if local_state.callstack_is_full() {
        error_flags.insert(ErrorFlags::CALLSTACK_IS_FULL);
    }
}

#[inline]
fn resolve_condition(flags: Flags, condition: Condition) -> bool {
    match condition {
        Condition::Always => true,
        Condition::Gt => flags.greater_than_flag,
        Condition::Lt => flags.overflow_or_less_than_flag,
        Condition::Eq => flags.equality_flag,
        Condition::Ge => flags.greater_than_flag | flags.equality_flag,
        Condition::Le => flags.overflow_or_less_than_flag | flags.equality_flag,
        Condition::Ne => !flags.equality_flag,
        Condition::GtOrLt => flags.greater_than_flag | flags.overflow_or_less_than_flag,
    }
}

#[inline(always)]
fn read_and_decode<'r, M: Memory, const BY_VALUE: bool>(
    local_state: &VmLocalState,
    memory: &mut M,
    records: Masked<'r>,
) -> (Decoded<'r, BY_VALUE>, DelayedLocalStateChanges, bool) {
    let mut delayed_changes = DelayedLocalStateChanges::default();
    read_opcode(local_state, memory, &mut delayed_changes);
    let skip_cycle = local_state.execution_has_ended();

    let mut error_flags = ErrorFlags::empty();
    let mut partially_decoded = Decoded::new(records);
    let ergs_cost = if skip_cycle { 0 } else { partially_decoded.ergs_cost };
    let held = local_state.callstack.get_current_stack().ergs_remaining;
    let (mut ergs_remaining, not_enough_power) = held.overflowing_sub(ergs_cost);
    if not_enough_power {
        ergs_remaining = 0;
        error_flags.insert(ErrorFlags::NOT_ENOUGH_ERGS);
    }
    delayed_changes.new_ergs_remaining = Some(ergs_remaining);

    check_exceptions(local_state, &partially_decoded, &mut error_flags);
    let mask_into_panic_due_to_exception = !error_flags.is_empty();
    if mask_into_panic_due_to_exception {
        partially_decoded.mask_into_panic();
    }
    let resolved_condition = resolve_condition(local_state.flags, partially_decoded.condition);
    if !resolved_condition && !mask_into_panic_due_to_exception {
        partially_decoded.mask_into_nop();
    }
    (partially_decoded, delayed_changes, skip_cycle)
}

/// Erases the metadata of a pointer, its two low words, where the instruction may not have one.
#[inline]
fn erase_if_unwanted(value: &mut PrimitiveValue, can_be_pointer: bool, is_kernel_mode: bool) {
    if !can_be_pointer && value.is_pointer && !is_kernel_mode {
        value.value.0[0] = 0;
        value.value.0[1] = 0;
        value.is_pointer = false;
    }
}

impl VmLocalState<'_> {
    /// The middle part of `cycle`: the source's value, and the destination's location if in memory. A push or pop moves sp.
    #[inline(always)]
    fn select_src0_and_dst0<M: Memory>(&mut self, memory: &mut M, opcode: &DecodedOpcode) -> (PrimitiveValue, Option<MemoryLocation>) {
        let mut mem_processor = MemOpsProcessor {
            sp: self.callstack.get_current_stack().sp,
        };
        let (src0_reg_value, mut src0_mem_location) =
            mem_processor.compute_addresses_and_select_operands(self, opcode.src0_reg_idx, opcode.imm_0, opcode.src0_operand_type, false);
        let (_, dst0_mem_location) =
            mem_processor.compute_addresses_and_select_operands(self, opcode.dst0_reg_idx, opcode.imm_1, opcode.dst0_operand_type, true);
        self.callstack.get_current_stack_mut().sp = mem_processor.sp;
        if opcode.opcode == Opcode::Nop {
            src0_mem_location = None;
        }
        let src0_mem_value = match src0_mem_location {
            Some(location) => memory.read(self.timestamp_for_code_or_src_read(), location),
            None => PrimitiveValue::empty(),
        };
        let src0 = match opcode.src0_operand_type {
            Operand::UseRegOnly => src0_reg_value,
            Operand::UseImm16Only => PrimitiveValue::from_value(U256::from_u64(opcode.imm_0 as u64)),
            _ => src0_mem_value,
        };
        (src0, dst0_mem_location)
    }

    /// What the operation gets: operands after the swap, without unwanted pointers.
    #[inline(always)]
    fn prestate<M: Memory>(&mut self, memory: &mut M, opcode: &DecodedOpcode, skip_cycle: bool) -> PreState {
        let (src0, dst0_mem_location) = self.select_src0_and_dst0(memory, opcode);
        let src1 = self.select_register_value(opcode.src1_reg_idx);
        let (mut src0, mut src1) = if opcode.swap_operands { (src1, src0) } else { (src0, src1) };
        let mut new_pc = self.callstack.get_current_stack().pc;
        if !skip_cycle {
            new_pc = new_pc.wrapping_add(1);
        }
        let is_kernel_mode = self.callstack.get_current_stack().is_kernel_mode();
        erase_if_unwanted(&mut src0, opcode.src0_can_be_pointer, is_kernel_mode);
        erase_if_unwanted(&mut src1, opcode.src1_can_be_pointer, is_kernel_mode);
        PreState {
            src0,
            src1,
            dst0_mem_location,
            new_pc,
        }
    }

    /// One cycle; the ergs that it charged.
    #[inline(always)]
    pub fn cycle<M: Memory, const BY_VALUE: bool>(&mut self, memory: &mut M, records: Masked) -> u32 {
        let held = self.callstack.get_current_stack().ergs_remaining;
        let (after_masking_decoded, delayed_changes, skip_cycle) = read_and_decode::<M, BY_VALUE>(self, memory, records);
        delayed_changes.apply(self);
        let charge = held - self.callstack.get_current_stack().ergs_remaining;

        let prestate = self.prestate(memory, &after_masking_decoded, skip_cycle);
        after_masking_decoded.apply(self, memory, prestate);

        if !skip_cycle {
            self.increment_timestamp_after_cycle();
        }
        self.monotonic_cycle_counter = self.monotonic_cycle_counter.wrapping_add(1);
        charge
    }
}
