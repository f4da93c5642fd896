//! Kinds of return.

#[derive(Clone, Copy, Debug, PartialEq, Eq)]
pub enum RetOpcode {
    Ok,
    Revert,
    Panic,
}

pub const RET_TO_LABEL_BIT_IDX: usize = 2;

/// Registers that a return from a far frame writes, which is outside the domain.
pub const RET_IMPLICIT_RETURNDATA_PARAMS_REGISTER: u8 = 0;
pub const RET_RESERVED_REGISTER_0: u8 = 1;
pub const RET_RESERVED_REGISTER_1: u8 = 2;
pub const RET_RESERVED_REGISTER_2: u8 = 3;
