//! Execute alone: the Rust's function of one operation, on a state in mid-cycle. Only there can a near call be at the limit, or a return at
//! depth 0.

use crate::case::*;
use crate::convert::*;
use crate::machine::{machine, Machine};
use crate::oracle::{state_after, Answer, Oracle, Outcome, Ran, BUILT_WITH};
use crate::places::{self, Place, Refusal};
use zk_evm::opcodes::DecodedOpcode;
use zk_evm::vm_state::{MemOpsProcessor, PreState};
use zkevm_opcode_defs::decoding::encoding_mode_production::Encoding;
use zkevm_opcode_defs::decoding::{EncodingModeProduction, VmEncodingMode};
use zkevm_opcode_defs::ethereum_types::U256;
use zkevm_opcode_defs::instruction::{self, InstructionRecord, InstructionRecords};
use zkevm_opcode_defs::Operand;

pub fn run(oracle: &Oracle, case: &Case) -> Answer {
    let plain = &case.records.plain;
    let outcome = match check_domain(case) {
        Ok((instruction, prestate)) => apply(oracle, case, to_opcode(instruction), prestate),
        Err(number) => Outcome::Outside(number.map(refusal)),
    };
    Answer {
        outcome,
        kept: to_instruction(plain).map(|_| Choice::Plain),
    }
}

/// The same on a case of any kind that can be stated. The registers are read by the Rust; a source in memory, the swap and what becomes of a
/// misplaced pointer's bit are written out here as `cycle` has them.
pub fn run_anyway(oracle: &Oracle, case: &Case) -> Result<Ran, Unstated> {
    let Case { state, records, .. } = case;
    let opcode = to_opcode(state_instruction(&records.plain)?);
    let (outcome, left_out) = match read_registers(oracle, case) {
        Ok(registers) => {
            let mut sources = chosen_sources(case, registers);
            let is_misplaced = misplaced(case, sources);
            sources[0].is_pointer &= !is_misplaced[0];
            sources[1].is_pointer &= !is_misplaced[1];
            let outcome = apply(oracle, case, opcode, prestate(state, sources[0], sources[1]));
            (outcome, left_out(case, is_misplaced != [false; 2]))
        }
        Err(place) => (Outcome::Panicked(place), None),
    };
    Ok(Ran {
        outcome,
        kept: Some(Choice::Plain),
        left_out,
    })
}

/// src0 and src1 by the Rust's own reading.
fn read_registers(oracle: &Oracle, case: &Case) -> Result<[Register; 2], Place> {
    let plain = &case.records.plain;
    let machine = machine(to_local_state(&case.state), U256(case.code_word), to_primitive(case.source));
    let mut processor = MemOpsProcessor { sp: 0 };
    oracle.catch(|| {
        [plain.src0, plain.src1].map(|number| {
            let (value, _) = processor.compute_addresses_and_select_operands(&machine, number, 0, Operand::RegOnly, false);
            from_primitive(value)
        })
    })
}

/// What the operation is handed of these two registers, after the swap.
fn chosen_sources(case: &Case, [src0, src1]: [Register; 2]) -> [Register; 2] {
    let plain = &case.records.plain;
    let src0 = match plain.source_kind {
        kind::REGISTER => src0,
        kind::IMMEDIATE => immediate(plain),
        _ if plain.is_nop() => Register::default(),
        _ => case.source,
    };
    if plain.swap {
        [src1, src0]
    } else {
        [src0, src1]
    }
}

/// Which of the two sources is a pointer that may not be one.
fn misplaced(case: &Case, [src0, src1]: [Register; 2]) -> [bool; 2] {
    let plain = &case.records.plain;
    let is_kernel = case.state.current.is_kernel();
    [
        src0.is_pointer && !plain.src0_may_be_pointer && !is_kernel,
        src1.is_pointer && !plain.src1_may_be_pointer && !is_kernel,
    ]
}

/// Which of refusals 5 to 7 holds, if any.
fn left_out(case: &Case, is_misplaced: bool) -> Option<u32> {
    let operation = case.records.plain.operation;
    if operation == operation::OTHER {
        Some(5)
    } else if is_misplaced {
        Some(6)
    } else if operation == operation::RETURN && case.state.current.0[place::LOCAL] == 0 {
        Some(7)
    } else {
        None
    }
}

fn refusal(number: u32) -> Refusal {
    Refusal {
        number,
        stage: places::EXECUTE,
    }
}

/// What the Rust's function is handed, or the refusal that puts the case outside the domain, where it is one. Checks run by number: a
/// return from a far frame at depth 0 is refused with 7, though the Rust would panic at the place of 8.
fn check_domain(case: &Case) -> Result<(InstructionRecord, PreState), Option<u32>> {
    let Case { state, records, .. } = case;
    let plain = &records.plain;
    if case.has_bad_sizes() {
        return Err(Some(1));
    }
    if case.settings != BUILT_WITH {
        return Err(None);
    }
    let instruction = to_instruction(plain).ok_or(Some(3))?;
    if plain.operation == operation::OTHER {
        return Err(Some(5));
    }
    let [src0, src1] = sources(state, plain).ok_or(None)?;
    if misplaced(case, [src0, src1]) != [false; 2] {
        return Err(Some(6));
    }
    if plain.operation == operation::RETURN {
        check_frames(state).map_err(Some)?;
    }
    if !state.saved.iter().all(Row::is_good) {
        return Err(None);
    }
    Ok((instruction, prestate(state, src0, src1)))
}

/// The parts of refusals 7 and 8 that the Rust does not have, or cannot state.
fn check_frames(state: &State) -> Result<(), u32> {
    if state.current.0[place::LOCAL] == 0 {
        return Err(7);
    }
    match state.saved.last() {
        Some(row) if !row.is_good() => Err(8),
        _ => Ok(()),
    }
}

/// `None` for a source in memory or a swap: to choose these is `cycle`'s part, and whole cycles have them.
fn sources(state: &State, record: &Record) -> Option<[Register; 2]> {
    let src0 = match record.source_kind {
        kind::REGISTER => state.register(record.src0),
        kind::IMMEDIATE => immediate(record),
        _ => return None,
    };
    (!record.swap).then(|| [src0, state.register(record.src1)])
}

fn immediate(record: &Record) -> Register {
    Register {
        value: [record.imm_0.into(), 0, 0, 0],
        is_pointer: false,
    }
}

/// As `cycle` makes it.
fn prestate(state: &State, src0: Register, src1: Register) -> PreState {
    let pc = state.current.0[place::PC] as u16;
    PreState {
        src0: to_primitive(src0),
        src1: to_primitive(src1),
        dst0_mem_location: None,
        new_pc: if state.has_ended() { pc } else { pc.wrapping_add(1) },
        is_kernel_mode: state.current.is_kernel(),
    }
}

fn to_opcode(plain: InstructionRecord) -> DecodedOpcode {
    // decoding gives the plain record's opcode; the other two are not asked for
    instruction::hand_in(InstructionRecords {
        plain,
        panic: plain,
        nop: plain,
    });
    let (inner, _) = EncodingModeProduction::parse_preliminary_variant_and_absolute_number(Encoding::Nop);
    DecodedOpcode { inner }
}

/// The operation, and then the end of `cycle`.
fn apply(oracle: &Oracle, case: &Case, opcode: DecodedOpcode, prestate: PreState) -> Outcome {
    let has_ended = case.state.has_ended();
    let mut machine = machine(to_local_state(&case.state), U256(case.code_word), to_primitive(case.source));
    let end = oracle.catch(|| {
        let result = opcode.apply(&mut machine, prestate);
        if !has_ended {
            machine.increment_timestamp_after_cycle();
        }
        result
    });
    match end {
        Ok(result) => result.expect("no operation carried over makes an error"),
        Err(place) => return Outcome::Panicked(place),
    }
    // this sum stands in `cycle` itself
    match machine.local_state.monotonic_cycle_counter.checked_add(1) {
        Some(counter) => machine.local_state.monotonic_cycle_counter = counter,
        None => return Outcome::Refused(refusal(14)),
    }
    Outcome::Finished(Box::new(finished(case, &machine)))
}

fn finished(case: &Case, machine: &Machine) -> Finished {
    assert!(machine.memory.queries().is_empty(), "a memory query with no location kept");
    Finished {
        state: state_after(case, machine),
        before: None,
        write: None,
        event: machine.storage.event,
    }
}
