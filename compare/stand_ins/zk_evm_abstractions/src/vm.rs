//! The traits of what is outside the machine. What no operation carried over calls has a body here that must not be reached.

use crate::auxiliary::{MemoryPage, PubdataCost, Timestamp};
use crate::queries::{DecommittmentQuery, LogQuery, MemoryQuery};
use std::fmt::Debug;
use zkevm_opcode_defs::ethereum_types::{Address, U256};
use zkevm_opcode_defs::FatPointer;

#[derive(Clone, Copy, Debug, PartialEq, Eq)]
pub enum MemoryType {
    Heap,
    AuxHeap,
    FatPointer,
    Stack,
    Code,
}

#[derive(Clone, Copy, Debug, PartialEq, Eq)]
pub enum StorageAccessRefund {
    Cold,
}

#[derive(Clone, Copy, Debug, PartialEq, Eq)]
pub struct PrecompileCyclesWitness;

/// What a precompile read, what it wrote, and its rounds.
pub type PrecompileResult = (Vec<MemoryQuery>, Vec<MemoryQuery>, PrecompileCyclesWitness);

pub trait Memory: Debug {
    fn execute_partial_query(&mut self, monotonic_cycle_counter: u32, query: MemoryQuery) -> MemoryQuery;

    fn read_code_query(&self, monotonic_cycle_counter: u32, query: MemoryQuery) -> MemoryQuery;

    fn start_global_frame(&mut self, _caller: MemoryPage, _callee: MemoryPage, _calldata: FatPointer, _at: Timestamp) {
        unreachable!("a far frame is opened")
    }

    /// A return from a far frame: the case is outside the domain, and the cycle goes on to its end.
    fn finish_global_frame(&mut self, _base: MemoryPage, _address: Address, _returndata: FatPointer, _at: Timestamp) {}
}

pub trait Storage: Debug {
    fn start_frame(&mut self, timestamp: Timestamp);

    fn finish_frame(&mut self, timestamp: Timestamp, panicked: bool);

    fn get_access_refund(&mut self, _cycle: u32, _query: &LogQuery) -> StorageAccessRefund {
        unreachable!("storage is asked for a refund")
    }

    fn execute_partial_query(&mut self, _cycle: u32, _query: LogQuery) -> (LogQuery, PubdataCost) {
        unreachable!("storage is accessed")
    }

    fn start_new_tx(&mut self, _timestamp: Timestamp) {
        unreachable!("a transaction is started")
    }
}

pub trait EventSink: Debug {
    fn start_frame(&mut self, timestamp: Timestamp);

    fn finish_frame(&mut self, panicked: bool, timestamp: Timestamp);

    fn add_partial_query(&mut self, _cycle: u32, _query: LogQuery) {
        unreachable!("an event is emitted")
    }
}

pub trait PrecompilesProcessor: Debug {
    fn start_frame(&mut self);

    fn finish_frame(&mut self, panicked: bool);

    fn execute_precompile<M: Memory>(&mut self, _cycle: u32, _query: LogQuery, _memory: &mut M) -> Option<PrecompileResult> {
        unreachable!("a precompile is called")
    }
}

pub trait DecommittmentProcessor: Debug {
    fn prepare_to_decommit(&mut self, _cycle: u32, _query: DecommittmentQuery) -> anyhow::Result<DecommittmentQuery> {
        unreachable!("code is decommitted")
    }

    fn decommit_into_memory<M: Memory>(
        &mut self,
        _cycle: u32,
        _query: DecommittmentQuery,
        _memory: &mut M,
    ) -> anyhow::Result<Option<Vec<U256>>> {
        unreachable!("code is decommitted")
    }
}
