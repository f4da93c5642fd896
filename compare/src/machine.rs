//! The Rust's machine for one case: its outside world answers from the case and records what it is asked.

use std::cell::{Cell, RefCell};
use zk_evm::block_properties::BlockProperties;
use zk_evm::tracing::{AfterDecodingData, AfterExecutionData, BeforeExecutionData, Tracer, VmLocalStateData};
use zk_evm::vm_state::{CallStackEntry, PrimitiveValue, VmLocalState, VmState};
use zk_evm::witness_trace::VmWitnessTracer;
use zk_evm_abstractions::aux::{MemoryLocation, Timestamp};
use zk_evm_abstractions::queries::MemoryQuery;
use zk_evm_abstractions::vm::{DecommittmentProcessor, EventSink, Memory, PrecompilesProcessor, Storage};
use zkevm_opcode_defs::decoding::encoding_mode_production::Encoding;
use zkevm_opcode_defs::decoding::EncodingModeProduction;
use zkevm_opcode_defs::ethereum_types::U256;
use zkevm_opcode_defs::Opcode;

use crate::case::{Choice, Event};

pub type Machine = VmState<FrameEvents, CaseMemory, Unused, Unused, Unused, Openings>;

/// A machine in the given state, whose memory holds the two words of a case.
pub fn machine(local_state: VmLocalState, code_word: U256, source: PrimitiveValue) -> Machine {
    VmState {
        local_state,
        block_properties: BlockProperties {
            default_aa_code_hash: U256::zero(),
            evm_simulator_code_hash: U256::zero(),
            zkporter_is_available: false,
        },
        storage: FrameEvents::default(),
        memory: CaseMemory {
            code_word,
            source,
            is_decoded: Cell::new(false),
            queries: RefCell::default(),
        },
        event_sink: Unused,
        precompiles_processor: Unused,
        decommittment_processor: Unused,
        witness_tracer: Openings::default(),
    }
}

/// Answers reads with the code word until decoding is done, and with the source word after it.
#[derive(Debug)]
pub struct CaseMemory {
    code_word: U256,
    source: PrimitiveValue,
    is_decoded: Cell<bool>,
    queries: RefCell<Vec<Query>>,
}

/// A query, and whether it came before decoding was done.
#[derive(Clone, Copy, Debug)]
pub struct Query {
    pub is_fetch: bool,
    pub query: MemoryQuery,
}

impl CaseMemory {
    pub fn queries(&self) -> Vec<Query> {
        self.queries.borrow().clone()
    }

    fn answer(&self, mut query: MemoryQuery) -> MemoryQuery {
        let is_fetch = !self.is_decoded.get();
        if !query.rw_flag {
            let word = if is_fetch {
                PrimitiveValue::from_value(self.code_word)
            } else {
                self.source
            };
            query.value = word.value;
            query.value_is_pointer = word.is_pointer;
        }
        self.queries.borrow_mut().push(Query { is_fetch, query });
        query
    }
}

impl Memory for CaseMemory {
    fn execute_partial_query(&mut self, _cycle: u32, query: MemoryQuery) -> MemoryQuery {
        self.answer(query)
    }

    fn read_code_query(&self, _cycle: u32, query: MemoryQuery) -> MemoryQuery {
        self.answer(query)
    }
}

/// The storage: frames that open and close are all it sees of a cycle.
#[derive(Debug, Default)]
pub struct FrameEvents {
    pub event: Event,
}

impl Storage for FrameEvents {
    fn start_frame(&mut self, _timestamp: Timestamp) {
        self.event = Event::Opened;
    }

    fn finish_frame(&mut self, _timestamp: Timestamp, panicked: bool) {
        self.event = Event::Closed { panicked };
    }
}

/// Event sink, precompiles and decommitter. They are told of frames just as the storage is.
#[derive(Debug)]
pub struct Unused;

impl EventSink for Unused {
    fn start_frame(&mut self, _timestamp: Timestamp) {}

    fn finish_frame(&mut self, _panicked: bool, _timestamp: Timestamp) {}
}

impl PrecompilesProcessor for Unused {
    fn start_frame(&mut self) {}

    fn finish_frame(&mut self, _panicked: bool) {}
}

impl DecommittmentProcessor for Unused {}

/// The witness tracer: it is told the cycle counter that `start_frame` is given, which the Rust keeps nowhere.
#[derive(Clone, Debug, Default)]
pub struct Openings {
    pub counter: Option<u32>,
}

impl VmWitnessTracer<8, EncodingModeProduction> for Openings {
    fn start_new_execution_context(&mut self, monotonic_cycle_counter: u32, _caller: &CallStackEntry, _opened: &CallStackEntry) {
        self.counter = Some(monotonic_cycle_counter);
    }
}

/// What the stages answer, seen from between them.
#[derive(Debug, Default)]
pub struct Recorder {
    pub decoded: Option<Decoded>,
    pub operands: Option<Operands>,
    pub destination: Option<MemoryLocation>,
}

#[derive(Clone, Copy, Debug)]
pub struct Decoded {
    pub encoding: Encoding,
    pub error_flags: u64,
    pub is_condition_met: bool,
    pub kept: Opcode,
}

impl Decoded {
    pub fn choice(&self) -> Choice {
        if self.error_flags != 0 {
            Choice::Panic
        } else if self.is_condition_met {
            Choice::Plain
        } else {
            Choice::Nop
        }
    }
}

#[derive(Clone, Copy, Debug)]
pub struct Operands {
    pub ergs_after_charge: u32,
    pub source: Option<MemoryLocation>,
    /// Which of refusals 5 to 7 execute would give, if any: document 01 leaves these out of the domain.
    pub left_out: Option<u32>,
}

impl Tracer for Recorder {
    const CALL_AFTER_DECODING: bool = true;
    const CALL_BEFORE_EXECUTION: bool = true;
    const CALL_AFTER_EXECUTION: bool = true;

    type SupportedMemory = CaseMemory;

    fn before_decoding(&mut self, _state: VmLocalStateData<'_>, _memory: &CaseMemory) {}

    fn after_decoding(&mut self, _state: VmLocalStateData<'_>, data: AfterDecodingData, memory: &CaseMemory) {
        memory.is_decoded.set(true);
        self.decoded = Some(Decoded {
            encoding: data.raw_opcode_unmasked,
            error_flags: data.error_flags_accumulated.bits(),
            is_condition_met: data.resolved_condition,
            kept: data.opcode_masked.variant.opcode,
        });
    }

    fn before_execution(&mut self, state: VmLocalStateData<'_>, data: BeforeExecutionData, _memory: &CaseMemory) {
        let frame = state.vm_local_state.callstack.get_current_stack();
        let opcode = data.opcode.variant.opcode;
        let is_carried_over = matches!(
            opcode,
            Opcode::Nop(_) | Opcode::Add(_) | Opcode::Sub(_) | Opcode::NearCall(_) | Opcode::Ret(_)
        );
        let is_misplaced_pointer =
            data.src0_value.is_pointer && !opcode.src0_can_be_pointer() || data.src1_value.is_pointer && !opcode.src1_can_be_pointer();
        let left_out = if !is_carried_over {
            Some(5)
        } else if is_misplaced_pointer && !frame.is_kernel_mode() {
            Some(6)
        } else if matches!(opcode, Opcode::Ret(_)) && !frame.is_local_frame {
            Some(7)
        } else {
            None
        };
        self.operands = Some(Operands {
            ergs_after_charge: frame.ergs_remaining,
            source: data.src0_mem_location,
            left_out,
        });
    }

    fn after_execution(&mut self, _state: VmLocalStateData<'_>, data: AfterExecutionData, _memory: &CaseMemory) {
        self.destination = data.dst0_mem_location;
    }
}
