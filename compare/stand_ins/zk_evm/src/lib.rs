//! The Rust's sources under a root of our own. The modules stand in the folder that `ERA_ZK_EVM_SRC` names and are compiled as they are.

// lints are for code of our own
#![allow(unused, clippy::all)]

mod other_opcodes;

pub use zk_evm_abstractions;
pub use zkevm_opcode_defs;

use zkevm_opcode_defs::ethereum_types::{Address, U256};

include!(concat!(env!("OUT_DIR"), "/sources.rs"));

/// The folder that the sources were taken from.
pub const FOLDER: &str = env!("ERA_ZK_EVM_FOLDER");

/// Reached where refusal 6 is owed, which is outside the domain, or would be if the time of the write were not refused before.
fn erase_fat_pointer_metadata(_: &mut U256) {}
