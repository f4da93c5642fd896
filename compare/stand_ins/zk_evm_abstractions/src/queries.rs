//! Queries to what is outside the machine.

use crate::auxiliary::{MemoryLocation, MemoryPage, Timestamp};
use zkevm_opcode_defs::ethereum_types::U256;
use zkevm_opcode_defs::{VersionedHashHeader, VersionedHashNormalizedPreimage};

#[derive(Clone, Copy, Debug, PartialEq, Eq)]
pub struct MemoryQuery {
    pub timestamp: Timestamp,
    pub location: MemoryLocation,
    pub value: U256,
    pub value_is_pointer: bool,
    pub rw_flag: bool,
}

#[derive(Clone, Copy, Debug, PartialEq, Eq)]
pub struct LogQuery {
    pub timestamp: Timestamp,
    pub aux_byte: u8,
    pub read_value: U256,
    pub written_value: U256,
    pub rw_flag: bool,
}

#[derive(Clone, Copy, Debug, PartialEq, Eq)]
pub struct DecommittmentQuery {
    pub header: VersionedHashHeader,
    pub normalized_preimage: VersionedHashNormalizedPreimage,
    pub timestamp: Timestamp,
    pub memory_page: MemoryPage,
    pub decommitted_length: u16,
    pub is_fresh: bool,
}
