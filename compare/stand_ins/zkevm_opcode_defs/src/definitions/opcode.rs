//! The operations, and what a record says of operands and condition.

use super::ret::RetOpcode;
use crate::instruction;

#[derive(Clone, Copy, Debug, PartialEq, Eq)]
pub struct NopOpcode;

#[derive(Clone, Copy, Debug, PartialEq, Eq)]
pub enum Opcode {
    Invalid(()),
    Nop(NopOpcode),
    Add(()),
    Sub(()),
    Mul(()),
    Div(()),
    Jump(()),
    Context(()),
    Shift(()),
    Binop(()),
    Ptr(()),
    NearCall(()),
    Log(()),
    FarCall(()),
    Ret(RetOpcode),
    UMA(()),
}

/// A record has these as fields, so both go by the record that decoding kept, whose operation `self` is.
impl Opcode {
    pub fn src0_can_be_pointer(self) -> bool {
        instruction::kept().src0_may_be_pointer
    }

    pub fn src1_can_be_pointer(self) -> bool {
        instruction::kept().src1_may_be_pointer
    }
}

#[derive(Clone, Copy, Debug, PartialEq, Eq)]
pub enum Operand {
    RegOnly,
    RegOrImm(RegOrImmFlags),
    Full(ImmMemHandlerFlags),
}

#[derive(Clone, Copy, Debug, PartialEq, Eq)]
pub enum RegOrImmFlags {
    UseRegOnly,
    UseImm16Only,
}

#[derive(Clone, Copy, Debug, PartialEq, Eq)]
pub enum ImmMemHandlerFlags {
    UseRegOnly,
    UseStackWithPushPop,
    UseStackWithOffset,
    UseAbsoluteOnStack,
    UseImm16Only,
    UseCodePage,
}

#[derive(Clone, Copy, Debug, PartialEq, Eq)]
pub enum Condition {
    Always,
    Gt,
    Lt,
    Eq,
    Ge,
    Le,
    Ne,
    GtOrLt,
}
