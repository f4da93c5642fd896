//! Operations, operands and conditions.

pub mod opcode;
pub mod ret;
pub mod versioned_hash;
