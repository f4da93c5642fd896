//! The instruction that the oracle hands in, in place of parsing: document 01's three records.

use crate::definitions::opcode::{Condition, ImmMemHandlerFlags, NopOpcode, Opcode, Operand};
use std::cell::Cell;

/// An instruction record of document 01.
#[derive(Clone, Copy, Debug)]
pub struct InstructionRecord {
    pub opcode: Opcode,
    pub condition: Condition,
    pub src0_operand_type: Operand,
    pub dst0_operand_type: Operand,
    pub src0_reg_idx: u8,
    pub src1_reg_idx: u8,
    pub dst0_reg_idx: u8,
    pub imm_0: u16,
    pub imm_1: u16,
    pub price: u32,
    pub explicit_panic: bool,
    pub kernel_only: bool,
    pub allowed_when_static: bool,
    pub swap: bool,
    pub set_flags: bool,
    pub to_label: bool,
    pub src0_may_be_pointer: bool,
    pub src1_may_be_pointer: bool,
}

/// The three that come together.
#[derive(Clone, Copy, Debug)]
pub struct InstructionRecords {
    pub plain: InstructionRecord,
    pub panic: InstructionRecord,
    pub nop: InstructionRecord,
}

const EMPTY: InstructionRecord = InstructionRecord {
    opcode: Opcode::Nop(NopOpcode),
    condition: Condition::Always,
    src0_operand_type: Operand::Full(ImmMemHandlerFlags::UseRegOnly),
    dst0_operand_type: Operand::Full(ImmMemHandlerFlags::UseRegOnly),
    src0_reg_idx: 0,
    src1_reg_idx: 0,
    dst0_reg_idx: 0,
    imm_0: 0,
    imm_1: 0,
    price: 0,
    explicit_panic: false,
    kernel_only: false,
    allowed_when_static: true,
    swap: false,
    set_flags: false,
    to_label: false,
    src0_may_be_pointer: false,
    src1_may_be_pointer: false,
};

thread_local! {
    static RECORDS: Cell<InstructionRecords> = const { Cell::new(InstructionRecords { plain: EMPTY, panic: EMPTY, nop: EMPTY }) };
    /// The record that decoding has come to so far.
    static KEPT: Cell<InstructionRecord> = const { Cell::new(EMPTY) };
}

/// Whatever this thread decodes from now on is this instruction.
pub fn hand_in(records: InstructionRecords) {
    RECORDS.set(records);
}

pub(crate) fn keep(choose: fn(InstructionRecords) -> InstructionRecord) -> InstructionRecord {
    let record = choose(RECORDS.get());
    KEPT.set(record);
    record
}

pub(crate) fn kept() -> InstructionRecord {
    KEPT.get()
}
