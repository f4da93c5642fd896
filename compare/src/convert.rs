//! Between document 01's numbers and the Rust's types.

use crate::case::*;
use zk_evm::flags::Flags;
use zk_evm::vm_state::{CallStackEntry, Callstack, PrimitiveValue, VmLocalState};
use zk_evm_abstractions::aux::{MemoryLocation, MemoryPage, MemoryType, PubdataCost};
use zk_evm_abstractions::queries::MemoryQuery;
use zkevm_opcode_defs::ethereum_types::{Address, U256};
use zkevm_opcode_defs::instruction::{InstructionRecord, InstructionRecords};
use zkevm_opcode_defs::{Condition, ImmMemHandlerFlags, NopOpcode, Opcode, Operand, RegOrImmFlags, RetOpcode};

pub fn to_primitive(register: Register) -> PrimitiveValue {
    PrimitiveValue {
        value: U256(register.value),
        is_pointer: register.is_pointer,
    }
}

pub fn from_primitive(value: PrimitiveValue) -> Register {
    Register {
        value: value.value.0,
        is_pointer: value.is_pointer,
    }
}

fn to_address(words: &[u32]) -> Address {
    let mut address = Address::zero();
    for (bytes, word) in address.0.chunks_exact_mut(4).zip(words) {
        bytes.copy_from_slice(&word.to_be_bytes());
    }
    address
}

fn from_address(address: Address) -> impl Iterator<Item = u32> {
    let word = |i: usize| u32::from_be_bytes([0, 1, 2, 3].map(|k| address.0[4 * i + k]));
    [0, 1, 2, 3, 4].map(word).into_iter()
}

/// The Rust's frame of a row, which is good.
fn to_frame(row: &Row) -> CallStackEntry {
    let words = &row.0;
    let address = |i: usize| to_address(&words[place::ADDRESSES + 5 * i..][..5]);
    let context = (0..4).map(|i| u128::from(words[place::CONTEXT + i]) << (32 * i)).sum();
    CallStackEntry {
        this_address: address(0),
        msg_sender: address(1),
        code_address: address(2),
        base_memory_page: MemoryPage(words[place::BASE_PAGE]),
        code_page: MemoryPage(words[place::CODE_PAGE]),
        sp: words[place::SP] as u16,
        pc: words[place::PC] as u16,
        exception_handler_location: words[place::HANDLER] as u16,
        ergs_remaining: words[place::ERGS],
        this_shard_id: words[place::SHARDS] as u8,
        caller_shard_id: words[place::SHARDS + 1] as u8,
        code_shard_id: words[place::SHARDS + 2] as u8,
        is_static: words[place::STATIC] == 1,
        is_local_frame: words[place::LOCAL] == 1,
        context_u128_value: context,
        heap_bound: words[place::HEAP_BOUND],
        aux_heap_bound: words[place::AUX_HEAP_BOUND],
        total_pubdata_spent: PubdataCost(words[place::PUBDATA] as i32),
        stipend: words[place::STIPEND],
    }
}

/// The Rust's frame has no cycle of opening: `with_openings` puts it in.
fn from_frame(frame: &CallStackEntry) -> Row {
    let context = frame.context_u128_value;
    let rest = [
        frame.base_memory_page.0,
        frame.code_page.0,
        frame.sp.into(),
        frame.pc.into(),
        frame.exception_handler_location.into(),
        frame.ergs_remaining,
        frame.this_shard_id.into(),
        frame.caller_shard_id.into(),
        frame.code_shard_id.into(),
        frame.is_static.into(),
        frame.is_local_frame.into(),
        context as u32,
        (context >> 32) as u32,
        (context >> 64) as u32,
        (context >> 96) as u32,
        frame.heap_bound,
        frame.aux_heap_bound,
        frame.total_pubdata_spent.0 as u32,
        frame.stipend,
    ];
    let addresses = [frame.this_address, frame.msg_sender, frame.code_address];
    let words = addresses.into_iter().flat_map(from_address).chain(rest);
    let mut row = Row([0; ROW]);
    row.0.iter_mut().zip(words).for_each(|(place, word)| *place = word);
    row
}

/// The Rust's state. Fields that no stage uses are 0.
pub fn to_local_state(state: &State) -> VmLocalState {
    VmLocalState {
        previous_code_word: U256(state.previous_code_word),
        previous_code_memory_page: MemoryPage(state.previous_code_page),
        registers: state.registers.map(to_primitive),
        flags: Flags {
            overflow_or_less_than_flag: state.flags[0],
            equality_flag: state.flags[1],
            greater_than_flag: state.flags[2],
        },
        timestamp: state.timestamp,
        monotonic_cycle_counter: state.cycle_counter,
        spent_pubdata_counter: 0,
        memory_page_counter: 0,
        absolute_execution_step: 0,
        tx_number_in_block: 0,
        pending_exception: state.pending_exception,
        previous_super_pc: state.previous_super_pc,
        context_u128_register: 0,
        callstack: Callstack {
            current: to_frame(&state.current),
            inner: state.saved.iter().map(to_frame).collect(),
        },
        pubdata_revert_counter: PubdataCost(state.revert_counter as i32),
    }
}

pub fn from_local_state(state: &VmLocalState) -> State {
    let flags = state.flags;
    State {
        registers: state.registers.map(from_primitive),
        flags: [flags.overflow_or_less_than_flag, flags.equality_flag, flags.greater_than_flag],
        timestamp: state.timestamp,
        cycle_counter: state.monotonic_cycle_counter,
        pending_exception: state.pending_exception,
        previous_code_word: state.previous_code_word.0,
        previous_code_page: state.previous_code_memory_page.0,
        previous_super_pc: state.previous_super_pc,
        revert_counter: state.pubdata_revert_counter.0 as u32,
        current: from_frame(&state.callstack.current),
        saved: state.callstack.inner.iter().map(from_frame).collect(),
    }
}

/// The Rust's state after a case, with the cycle of each frame's opening, which document 02 alone defines: a frame that was opened has the
/// counter before the case, each other frame its own. `told` is the counter that the Rust gave `start_frame`, if it opened a frame.
pub fn with_openings(before: &State, mut after: State, told: Option<u32>) -> State {
    let is_opened = before.saved.len() < after.saved.len();
    assert_eq!(
        told,
        is_opened.then_some(before.cycle_counter),
        "start_frame was given another counter"
    );
    let openings = before.saved.iter().chain([&before.current]).map(|row| row.0[place::OPENING]);
    let openings = openings.chain([before.cycle_counter]);
    for (row, opening) in after.saved.iter_mut().chain([&mut after.current]).zip(openings) {
        row.0[place::OPENING] = opening;
    }
    after
}

/// A location of one of the two kinds that the stages use, at a time.
pub fn from_location(location: MemoryLocation, time: u32) -> Location {
    let memory = match location.memory_type {
        MemoryType::Stack => Memory::Stack,
        MemoryType::Code => Memory::Code,
        other => unreachable!("memory of kind {other:?}"),
    };
    Location {
        memory,
        page: location.page.0,
        index: location.index.0,
        time,
    }
}

/// Where and when the Rust asks its memory.
pub fn from_query(query: MemoryQuery) -> Location {
    from_location(query.location, query.timestamp.0)
}

/// What the Rust's types cannot state: an enum has no such variant.
pub type Unstated = &'static str;

fn to_return_kind(number: u8) -> Result<RetOpcode, Unstated> {
    match number {
        return_kind::OK => Ok(RetOpcode::Ok),
        return_kind::REVERT => Ok(RetOpcode::Revert),
        return_kind::PANIC => Ok(RetOpcode::Panic),
        _ => Err("a return of a kind above 2"),
    }
}

/// Only a return has a kind in the Rust.
fn to_opcode(record: &Record) -> Result<Opcode, Unstated> {
    Ok(match record.operation {
        operation::NOP => Opcode::Nop(NopOpcode),
        operation::ADD => Opcode::Add(()),
        operation::SUB => Opcode::Sub(()),
        operation::NEAR_CALL => Opcode::NearCall(()),
        operation::RETURN => Opcode::Ret(to_return_kind(record.return_kind)?),
        operation::OTHER => Opcode::Mul(()),
        _ => return Err("an operation above 5"),
    })
}

pub fn operation_of(opcode: Opcode) -> u8 {
    match opcode {
        Opcode::Nop(_) => operation::NOP,
        Opcode::Add(_) => operation::ADD,
        Opcode::Sub(_) => operation::SUB,
        Opcode::NearCall(_) => operation::NEAR_CALL,
        Opcode::Ret(_) => operation::RETURN,
        _ => operation::OTHER,
    }
}

fn to_condition(number: u8) -> Result<Condition, Unstated> {
    const CONDITIONS: [Condition; 8] = [
        Condition::Always,
        Condition::Gt,
        Condition::Lt,
        Condition::Eq,
        Condition::Ge,
        Condition::Le,
        Condition::Ne,
        Condition::GtOrLt,
    ];
    CONDITIONS.get(usize::from(number)).copied().ok_or("a condition above 7")
}

/// The Rust has several operand types for a register or an immediate; near call and return have the narrow ones.
fn to_operand(number: u8, operation: u8) -> Result<Operand, Unstated> {
    let is_narrow = matches!(operation, operation::NEAR_CALL | operation::RETURN);
    let flags = match number {
        kind::REGISTER if is_narrow => return Ok(Operand::RegOnly),
        kind::IMMEDIATE if is_narrow => return Ok(Operand::RegOrImm(RegOrImmFlags::UseImm16Only)),
        kind::REGISTER => ImmMemHandlerFlags::UseRegOnly,
        kind::IMMEDIATE => ImmMemHandlerFlags::UseImm16Only,
        kind::PUSH_POP => ImmMemHandlerFlags::UseStackWithPushPop,
        kind::STACK_OFFSET => ImmMemHandlerFlags::UseStackWithOffset,
        kind::CODE_PAGE => ImmMemHandlerFlags::UseCodePage,
        kind::ABSOLUTE_STACK => ImmMemHandlerFlags::UseAbsoluteOnStack,
        _ => return Err("a source or destination kind above 5"),
    };
    Ok(Operand::Full(flags))
}

/// The Rust's record, good or not, as far as its types can state it.
pub fn state_instruction(record: &Record) -> Result<InstructionRecord, Unstated> {
    Ok(InstructionRecord {
        opcode: to_opcode(record)?,
        condition: to_condition(record.condition)?,
        src0_operand_type: to_operand(record.source_kind, record.operation)?,
        dst0_operand_type: to_operand(record.destination_kind, record.operation)?,
        src0_reg_idx: record.src0,
        src1_reg_idx: record.src1,
        dst0_reg_idx: record.dst0,
        imm_0: record.imm_0,
        imm_1: record.imm_1,
        price: record.price,
        explicit_panic: record.explicit_panic,
        kernel_only: record.kernel_only,
        allowed_when_static: record.allowed_when_static,
        swap: record.swap,
        set_flags: record.set_flags,
        to_label: record.to_label,
        src0_may_be_pointer: record.src0_may_be_pointer,
        src1_may_be_pointer: record.src1_may_be_pointer,
    })
}

/// `None` where a field is outside its list, a register above 15, or a destination an immediate or on the code page.
pub fn to_instruction(record: &Record) -> Option<InstructionRecord> {
    let is_register = |number: u8| usize::from(number) <= REGISTERS;
    let are_registers = [record.src0, record.src1, record.dst0].into_iter().all(is_register);
    let is_destination = !matches!(record.destination_kind, kind::IMMEDIATE | kind::CODE_PAGE);
    let is_kind = record.return_kind <= return_kind::PANIC;
    if !are_registers || !is_destination || !is_kind {
        return None;
    }
    state_instruction(record).ok()
}

pub fn to_instructions(records: &Records) -> Option<InstructionRecords> {
    Some(InstructionRecords {
        plain: to_instruction(&records.plain)?,
        panic: to_instruction(&records.panic)?,
        nop: to_instruction(&records.nop)?,
    })
}

/// The three, good or not.
pub fn state_instructions(records: &Records) -> Result<InstructionRecords, Unstated> {
    Ok(InstructionRecords {
        plain: state_instruction(&records.plain)?,
        panic: state_instruction(&records.panic)?,
        nop: state_instruction(&records.nop)?,
    })
}
