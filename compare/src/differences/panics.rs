//! Panics of the Rust that are refusals.

use super::left_out::pointer;
use super::row::*;
use crate::case::*;
use crate::cases::calm;
use crate::oracle::BUILT_WITH;
use crate::places::{DECODE, EXECUTE, FETCH, OPERANDS};
use Rust::Panics;

const CYCLE: &str = "vm_state/cycle.rs";
const HELPERS: &str = "vm_state/helpers.rs";
const STACK: &str = "vm_state/execution_stack.rs";
const STATE: &str = "vm_state/mod.rs";
const MEM_OPS: &str = "vm_state/mem_ops.rs";
const RET: &str = "opcodes/execution/ret.rs";

pub fn rows() -> Vec<Entry> {
    let ret = Panics(RET, "ret_opcode_apply");
    let finish_frame = Panics(HELPERS, "finish_frame");
    let start_frame = Panics(HELPERS, "start_frame");
    let select = Panics(HELPERS, "select_register_value");
    let select_operands = Panics(MEM_OPS, "compute_addresses_and_select_operands");
    let write_time_of = Panics(STATE, "timestamp_for_dst_write");
    let time_after = Panics(STATE, "increment_timestamp_after_cycle");
    vec![
        row("I1", ended_and_pending, Panics(CYCLE, "read_and_decode"), refuses(4, FETCH)),
        row("I2", return_at_0, finish_frame, refuses(8, EXECUTE)),
        row_with(Needs::LimitAbove0, "I3", near_call_at_the_limit, start_frame, refuses(9, EXECUTE)),
        row("I4", pubdata_sum, finish_frame, refuses(10, EXECUTE)),
        row("I5", counter_below_0, finish_frame, refuses(11, EXECUTE)),
        row("I6", counter_too_large, finish_frame, refuses(11, EXECUTE)),
        row("I7", ergs_sum, ret, refuses(12, EXECUTE)),
        row("I8", heap_bounds, ret, refuses(13, EXECUTE)),
        row("I9", stack_page, Panics(STACK, "stack_page_from_base"), refuses(14, OPERANDS)),
        row("I10", write_time, write_time_of, refuses(14, OPERANDS)),
        row_with(Needs::TimeStep, "I11", time_after_the_cycle, time_after, refuses(14, EXECUTE)),
        row("I12", cycle_counter, Panics(CYCLE, "cycle"), refuses(14, EXECUTE)),
        row("I13", kept_destination, select_operands, refuses(3, DECODE)).by(RECORDS),
        row("I23", kept_register, select, refuses(3, DECODE)).by(RECORDS),
        row("I24", source_alone, select, refuses(3, EXECUTE)),
        row(
            "I25",
            destination_alone,
            Panics(HELPERS, "update_register_value"),
            refuses(3, EXECUTE),
        ),
        row("I26", return_when_ended, finish_frame, refuses(3, DECODE)).by(RECORDS),
        row_with(Needs::LimitBelow16, "I27", near_call_above, start_frame, refuses(1, FETCH)),
        row_with(Needs::Limit0, "I28", full_at_0, finish_frame, refuses(1, FETCH)),
        row("I29", far_return_page, Panics(STACK, "heap_page_from_base"), refuses(7, EXECUTE)).by(RET_ABI),
        row("I30", far_return_sums, finish_frame, refuses(7, EXECUTE)).by(RET_ABI),
        row("I31", pointer_and_counter, Panics(CYCLE, "cycle"), refuses(6, EXECUTE)),
        row("I50", pointer_and_write_time, write_time_of, refuses(14, OPERANDS)).by("erase_fat_pointer_metadata"),
    ]
}

fn ended_and_pending() -> Vec<Case> {
    let mut case = calm::cycle(operation::NOP);
    calm::set_depth(&mut case.state, 0);
    case.state.pending_exception = true;
    vec![case]
}

/// A return of each kind.
fn returns() -> Vec<Case> {
    let of_kind = |kind| with(calm::cycle(operation::RETURN), |case| case.records.plain.return_kind = kind);
    [return_kind::OK, return_kind::REVERT, return_kind::PANIC].map(of_kind).to_vec()
}

/// Each case with the same change.
fn each(cases: Vec<Case>, change: fn(&mut Case)) -> Vec<Case> {
    cases.into_iter().map(|case| with(case, change)).collect()
}

fn return_at_0() -> Vec<Case> {
    each(returns(), |case| {
        case.part = Part::Execute;
        calm::set_depth(&mut case.state, 0);
    })
}

fn near_call_at_the_limit() -> Vec<Case> {
    vec![calm::alone(operation::NEAR_CALL, BUILT_WITH.limit)]
}

fn pubdata_sum() -> Vec<Case> {
    let mut case = calm::cycle(operation::RETURN);
    case.state.saved[0].0[place::PUBDATA] = i32::MAX as u32;
    case.state.current.0[place::PUBDATA] = 1;
    vec![case]
}

fn counter_below_0() -> Vec<Case> {
    let mut cases = each(returns(), |case| case.state.current.0[place::PUBDATA] = 1);
    // ok looks at the counter alone
    cases[0].state.revert_counter = -1i32 as u32;
    cases
}

fn counter_too_large() -> Vec<Case> {
    each(returns().split_off(1), |case| {
        case.state.revert_counter = i32::MAX as u32;
        case.state.current.0[place::PUBDATA] = -1i32 as u32;
    })
}

fn ergs_sum() -> Vec<Case> {
    each(returns(), |case| {
        case.state.saved[0].0[place::ERGS] = u32::MAX;
        case.state.current.0[place::ERGS] = 1;
    })
}

fn heap_bounds() -> Vec<Case> {
    let heap = each(returns(), |case| case.state.saved[0].0[place::HEAP_BOUND] = 1);
    let aux_heap = each(returns(), |case| case.state.saved[0].0[place::AUX_HEAP_BOUND] = 1);
    [heap, aux_heap].concat()
}

const STACK_KINDS: [u8; 3] = [kind::PUSH_POP, kind::STACK_OFFSET, kind::ABSOLUTE_STACK];

fn stack_page() -> Vec<Case> {
    let mut case = calm::cycle(operation::NOP);
    case.state.current.0[place::BASE_PAGE] = u32::MAX;
    let source = STACK_KINDS.map(|kind| with(case.clone(), |case| case.records.plain.source_kind = kind));
    let destination = STACK_KINDS.map(|kind| with(case.clone(), |case| case.records.plain.destination_kind = kind));
    [source, destination].concat()
}

fn write_time() -> Vec<Case> {
    let to_memory = |operation| {
        STACK_KINDS.map(|kind| {
            with(calm::cycle(operation), |case| {
                case.state.timestamp = u32::MAX - 2;
                case.records.plain.destination_kind = kind;
            })
        })
    };
    [operation::ADD, operation::SUB].map(to_memory).concat()
}

/// Operands refuses before execute would.
fn pointer_and_write_time() -> Vec<Case> {
    let to_memory = |operation| {
        with(pointer(operation), |case| {
            case.state.timestamp = u32::MAX - 2;
            case.records.plain.destination_kind = kind::PUSH_POP;
        })
    };
    [operation::ADD, operation::SUB].map(to_memory).to_vec()
}

fn time_after_the_cycle() -> Vec<Case> {
    vec![with(calm::cycle(operation::NOP), |case| {
        case.state.timestamp = u32::MAX - BUILT_WITH.time_step + 1
    })]
}

fn cycle_counter() -> Vec<Case> {
    let case = with(calm::cycle(operation::NOP), |case| case.state.cycle_counter = u32::MAX);
    let ended = with(case.clone(), |case| calm::set_depth(&mut case.state, 0));
    vec![case, ended]
}

/// Cases that keep a record with this change: the plain one of an add and of a near call, the panic record, the nop record.
fn kept_with(change: fn(&mut Record)) -> Vec<Case> {
    vec![
        with(calm::cycle(operation::ADD), |case| change(&mut case.records.plain)),
        with(calm::cycle(operation::NEAR_CALL), |case| change(&mut case.records.plain)),
        short_of_ergs(with(calm::cycle(operation::ADD), |case| change(&mut case.records.panic))),
        not_met(with(calm::cycle(operation::ADD), |case| change(&mut case.records.nop))),
    ]
}

fn kept_destination() -> Vec<Case> {
    let immediate = kept_with(|record| record.destination_kind = kind::IMMEDIATE);
    let code_page = kept_with(|record| record.destination_kind = kind::CODE_PAGE);
    [immediate, code_page].concat()
}

fn kept_register() -> Vec<Case> {
    let src0 = kept_with(|record| record.src0 = 16);
    let src1 = kept_with(|record| record.src1 = 16);
    let dst0 = kept_with(|record| record.dst0 = 16);
    [src0, src1, dst0].concat()
}

/// Execute alone for each operation from 0 to 4.
pub fn alone_each(change: fn(&mut Record)) -> Vec<Case> {
    let changed = |operation| with(calm::alone(operation, 1), |case| change(&mut case.records.plain));
    (operation::NOP..=operation::RETURN).map(changed).collect()
}

fn source_alone() -> Vec<Case> {
    [alone_each(|record| record.src0 = 16), alone_each(|record| record.src1 = 16)].concat()
}

fn destination_alone() -> Vec<Case> {
    let to_16 = |operation| with(calm::alone(operation, 1), |case| case.records.plain.dst0 = 16);
    [operation::ADD, operation::SUB].map(to_16).to_vec()
}

/// A return, and a nop with each of the three flags that there can be.
fn return_when_ended() -> Vec<Case> {
    let flagged = |flag: fn(&mut Case)| with(calm::cycle(operation::NOP), flag);
    let mut cases = returns();
    cases.push(flagged(|case| case.records.plain.explicit_panic = true));
    cases.push(flagged(|case| {
        case.records.plain.kernel_only = true;
        case.state.current.0[place::ADDRESSES] = 1;
    }));
    cases.push(flagged(|case| {
        case.records.plain.allowed_when_static = false;
        case.state.current.0[place::STATIC] = 1;
    }));
    each(cases, |case| calm::set_depth(&mut case.state, 0))
}

fn near_call_above() -> Vec<Case> {
    vec![with(calm::cycle(operation::NEAR_CALL), |case| {
        calm::set_depth(&mut case.state, BUILT_WITH.limit + 1)
    })]
}

fn full_at_0() -> Vec<Case> {
    vec![with(calm::cycle(operation::NOP), |case| calm::set_depth(&mut case.state, 0))]
}

fn far_return_page() -> Vec<Case> {
    let mut cases = returns();
    cases.truncate(2);
    each(cases, |case| {
        case.state.current.0[place::LOCAL] = 0;
        case.state.current.0[place::BASE_PAGE] = u32::MAX - 1;
    })
}

/// What would be refusals 8, 10 and 11 in a local frame.
fn far_return_sums() -> Vec<Case> {
    let cases = [return_at_0(), pubdata_sum(), counter_below_0()].concat();
    each(cases, |case| case.state.current.0[place::LOCAL] = 0)
}

fn pointer_and_counter() -> Vec<Case> {
    vec![with(super::left_out::pointer(operation::NOP), |case| {
        case.state.cycle_counter = u32::MAX
    })]
}
