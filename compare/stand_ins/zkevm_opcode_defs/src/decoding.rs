//! The production encoding: 16-bit pc, sp and immediates, instructions of 64 bits.

use crate::definitions::opcode::{Condition, Opcode, Operand};
use crate::definitions::ret::RET_TO_LABEL_BIT_IDX;
use crate::ethereum_types::U256;
use crate::instruction::{self, InstructionRecord};
use crate::price::AbsoluteNumber;
use crate::{SET_FLAGS_FLAG_IDX, SWAP_OPERANDS_FLAG_IDX};
use std::fmt::{Debug, Display, Formatter};
use std::hash::Hash;

pub use encoding_mode_production::EncodingModeProduction;

/// Numbers that may be a pc, an sp or an immediate.
pub trait AllowedPcOrImm: 'static + Copy + Debug + Eq + Hash {
    fn from_u64_clipped(value: u64) -> Self;
    fn as_u64(self) -> u64;
    fn wrapping_add(self, other: Self) -> Self;
    fn wrapping_sub(self, other: Self) -> Self;
}

impl AllowedPcOrImm for u16 {
    fn from_u64_clipped(value: u64) -> Self {
        value as u16
    }

    fn as_u64(self) -> u64 {
        self.into()
    }

    fn wrapping_add(self, other: Self) -> Self {
        u16::wrapping_add(self, other)
    }

    fn wrapping_sub(self, other: Self) -> Self {
        u16::wrapping_sub(self, other)
    }
}

pub trait VmEncodingMode<const N: usize>: 'static + Copy + Debug + Eq + Hash {
    type PcOrImm: AllowedPcOrImm;
    type IntegerRepresentation: Copy + Debug;

    fn split_pc(pc: Self::PcOrImm) -> (Self::PcOrImm, u8);
    fn integer_representaiton_from_u256(word: U256, sub_pc: u8) -> Self::IntegerRepresentation;
    fn exception_revert_encoding() -> Self::IntegerRepresentation;
    fn nop_encoding() -> Self::IntegerRepresentation;
    fn parse_preliminary_variant_and_absolute_number(encoding: Self::IntegerRepresentation) -> (DecodedOpcode<N, Self>, AbsoluteNumber);
}

pub mod encoding_mode_production {
    use super::*;

    #[derive(Clone, Copy, Debug, PartialEq, Eq, Hash)]
    pub struct EncodingModeProduction;

    /// What decoding starts from: 64 bits of code, or one of the two instructions that come from no code.
    #[derive(Clone, Copy, Debug, PartialEq, Eq)]
    pub enum Encoding {
        Code(u64),
        Exception,
        Nop,
    }

    impl VmEncodingMode<8> for EncodingModeProduction {
        type PcOrImm = u16;
        type IntegerRepresentation = Encoding;

        fn split_pc(pc: u16) -> (u16, u8) {
            (pc / 4, (pc % 4) as u8)
        }

        fn integer_representaiton_from_u256(word: U256, sub_pc: u8) -> Encoding {
            // sub pc 0 is the highest 64 bits
            Encoding::Code(word.0[3 - sub_pc as usize])
        }

        fn exception_revert_encoding() -> Encoding {
            Encoding::Exception
        }

        fn nop_encoding() -> Encoding {
            Encoding::Nop
        }

        fn parse_preliminary_variant_and_absolute_number(_: Encoding) -> (DecodedOpcode<8, Self>, AbsoluteNumber) {
            let record = instruction::keep(|records| records.plain);
            (DecodedOpcode::from_record(record), AbsoluteNumber(record.price))
        }
    }
}

#[derive(Clone, Copy, Debug)]
pub struct OpcodeVariant {
    pub opcode: Opcode,
    pub src0_operand_type: Operand,
    pub dst0_operand_type: Operand,
    pub flags: [bool; 3],
    explicit_panic: bool,
    kernel_only: bool,
    allowed_when_static: bool,
}

impl OpcodeVariant {
    pub fn is_explicit_panic(&self) -> bool {
        self.explicit_panic
    }

    pub fn requires_kernel_mode(&self) -> bool {
        self.kernel_only
    }

    pub fn can_be_used_in_static_context(&self) -> bool {
        self.allowed_when_static
    }

    pub fn swap_operands(&self) -> bool {
        self.flags[SWAP_OPERANDS_FLAG_IDX]
    }
}

#[derive(Clone, Copy, Debug)]
pub struct DecodedOpcode<const N: usize = 8, E: VmEncodingMode<N> = EncodingModeProduction> {
    pub variant: OpcodeVariant,
    pub condition: Condition,
    pub src0_reg_idx: u8,
    pub src1_reg_idx: u8,
    pub dst0_reg_idx: u8,
    pub imm_0: E::PcOrImm,
    pub imm_1: E::PcOrImm,
}

impl<const N: usize, E: VmEncodingMode<N>> DecodedOpcode<N, E> {
    fn from_record(record: InstructionRecord) -> Self {
        let mut flags = [false; 3];
        flags[SET_FLAGS_FLAG_IDX] = record.set_flags;
        flags[SWAP_OPERANDS_FLAG_IDX] = record.swap;
        flags[RET_TO_LABEL_BIT_IDX] = record.to_label;
        Self {
            variant: OpcodeVariant {
                opcode: record.opcode,
                src0_operand_type: record.src0_operand_type,
                dst0_operand_type: record.dst0_operand_type,
                flags,
                explicit_panic: record.explicit_panic,
                kernel_only: record.kernel_only,
                allowed_when_static: record.allowed_when_static,
            },
            condition: record.condition,
            src0_reg_idx: record.src0_reg_idx,
            src1_reg_idx: record.src1_reg_idx,
            dst0_reg_idx: record.dst0_reg_idx,
            imm_0: E::PcOrImm::from_u64_clipped(record.imm_0.into()),
            imm_1: E::PcOrImm::from_u64_clipped(record.imm_1.into()),
        }
    }

    pub fn mask_into_panic(&mut self) {
        *self = Self::from_record(instruction::keep(|records| records.panic));
    }

    pub fn mask_into_nop(&mut self) {
        *self = Self::from_record(instruction::keep(|records| records.nop));
    }
}

impl<const N: usize, E: VmEncodingMode<N>> Display for DecodedOpcode<N, E> {
    fn fmt(&self, f: &mut Formatter<'_>) -> std::fmt::Result {
        write!(f, "{self:?}")
    }
}
