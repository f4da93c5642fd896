//! Stand-in for zkevm_opcode_defs: the names that the sources of the cycle use. Code words are not parsed; the instruction is the one that
//! [`instruction::hand_in`] was given.

mod abi;
pub mod bitflags;
pub mod decoding;
pub mod definitions;
pub mod ethereum_types;
pub mod instruction;
mod price;
pub mod system_params;

pub use abi::{FatPointer, FatPointerValidationException, NearCallABI, RetABI, RetForwardPageType};
pub use decoding::{DecodedOpcode, OpcodeVariant};
pub use definitions::opcode::{Condition, ImmMemHandlerFlags, NopOpcode, Opcode, Operand, RegOrImmFlags};
pub use definitions::ret::RetOpcode;
pub use definitions::versioned_hash::{VersionedHashHeader, VersionedHashLen32, VersionedHashNormalizedPreimage};
pub use price::{AbsoluteNumber, OPCODES_PRICES};
pub use system_params::*;

#[derive(Clone, Copy, Debug, PartialEq, Eq)]
pub struct ISAVersion(pub u8);

pub const DEFAULT_ISA_VERSION: ISAVersion = ISAVersion(2);

pub const REGISTERS_COUNT: usize = 15;

/// Places in [`OpcodeVariant::flags`]. A record has set flags and to label as fields of their own, so each has its place.
pub const SET_FLAGS_FLAG_IDX: usize = 0;
pub const SWAP_OPERANDS_FLAG_IDX: usize = 1;
