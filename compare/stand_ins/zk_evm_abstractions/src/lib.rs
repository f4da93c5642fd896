//! Stand-in for zk_evm_abstractions: places, times, queries, and the traits of what is outside the machine.

pub mod auxiliary;
pub mod queries;
pub mod vm;

pub use auxiliary as aux;
pub use zkevm_opcode_defs;
