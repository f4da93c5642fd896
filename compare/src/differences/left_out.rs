//! What is left out of the domain.

use super::panics::alone_each;
use super::row::*;
use crate::case::*;
use crate::cases::calm;
use crate::oracle::BUILT_WITH;
use crate::places::{DECODE, EXECUTE, FETCH};
use Rust::{CannotBeStated, Finishes, RunsAStandIn};

pub fn rows() -> Vec<Entry> {
    vec![
        row("I14", other_kept, RunsAStandIn, refuses(5, EXECUTE)).by("the operation"),
        row("I15", pointers, Finishes, refuses(6, EXECUTE)).by("erase_fat_pointer_metadata"),
        row("I16", far_returns, Finishes, refuses(7, EXECUTE)).by(RET_ABI),
        row("I17", bad_top_row, CannotBeStated, refuses(8, EXECUTE)),
        row("I32", bad_record_not_kept, Finishes, refuses(3, DECODE)).by(RECORDS),
        row("I33", return_kind_of_no_return, Finishes, refuses(3, DECODE)).by(RECORDS),
        row("I34", panic_record, Finishes, refuses(3, DECODE)).by(RECORDS),
        row("I35", nop_record, Finishes, refuses(3, DECODE)).by(RECORDS),
        row("I36", ended, Finishes, refuses(3, DECODE)).by(RECORDS),
        row("I37", pending, Finishes, refuses(3, DECODE)).by(RECORDS),
        row_with(Needs::LimitBelow16, "I38", depth_above, Finishes, refuses(1, FETCH)),
        row_with(Needs::LimitAbove0, "I39", limit_0, Finishes, refuses(1, FETCH)),
        row("I40", bad_field_alone, Finishes, refuses(3, EXECUTE)),
        row("I41", beyond_the_types, CannotBeStated, refuses(3, DECODE)),
        row("I42", bad_row_unread, CannotBeStated, Port::Finishes),
    ]
}

fn other_kept() -> Vec<Case> {
    vec![calm::cycle(operation::OTHER), calm::alone(operation::OTHER, 1)]
}

/// Register 1 is src0 and a pointer, where none may be, and the frame is not in kernel mode.
pub fn pointer(operation: u8) -> Case {
    with(calm::cycle(operation), |case| {
        case.state.registers[0].is_pointer = true;
        case.state.current.0[place::ADDRESSES] = 1;
        case.records.plain.src0 = 1;
    })
}

fn pointers() -> Vec<Case> {
    (operation::NOP..=operation::RETURN).map(pointer).collect()
}

fn far_returns() -> Vec<Case> {
    let of_kind = |kind| {
        with(calm::cycle(operation::RETURN), |case| {
            case.records.plain.return_kind = kind;
            case.state.current.0[place::LOCAL] = 0;
        })
    };
    [return_kind::OK, return_kind::REVERT, return_kind::PANIC].map(of_kind).to_vec()
}

fn bad_top_row() -> Vec<Case> {
    vec![with(calm::cycle(operation::RETURN), |case| {
        case.state.saved[0].0[place::SP] = 1 << 16
    })]
}

/// Cases that do not keep the record with this change: the plain one masked into panic and into nop, the panic record where no error flag is
/// set, the nop record where the condition is met.
fn not_kept_with(change: fn(&mut Record)) -> Vec<Case> {
    let plain = with(calm::cycle(operation::ADD), |case| change(&mut case.records.plain));
    vec![
        short_of_ergs(plain.clone()),
        not_met(plain),
        with(calm::cycle(operation::ADD), |case| change(&mut case.records.panic)),
        with(calm::cycle(operation::ADD), |case| change(&mut case.records.nop)),
    ]
}

fn bad_record_not_kept() -> Vec<Case> {
    [
        not_kept_with(|record| record.destination_kind = kind::IMMEDIATE),
        not_kept_with(|record| record.destination_kind = kind::CODE_PAGE),
        not_kept_with(|record| record.src0 = 16),
        not_kept_with(|record| record.src1 = 16),
        not_kept_with(|record| record.dst0 = 16),
    ]
    .concat()
}

fn return_kind_of_no_return() -> Vec<Case> {
    let plain = |operation| with(calm::cycle(operation), |case| case.records.plain.return_kind = 3);
    let mut cases = Vec::from_iter((operation::NOP..=operation::NEAR_CALL).map(plain));
    let of_add = plain(operation::ADD);
    let of_nop = with(calm::cycle(operation::ADD), |case| case.records.nop.return_kind = 3);
    cases.extend([short_of_ergs(of_add.clone()), not_met(of_add), not_met(of_nop.clone()), of_nop]);
    cases
}

/// All that the panic record may be and should not, kept and not.
fn panic_record() -> Vec<Case> {
    let mut cases = Vec::new();
    for (operation, kind) in [(0, 0), (1, 0), (2, 0), (3, 0), (4, return_kind::OK), (4, return_kind::REVERT)] {
        let case = with(calm::cycle(operation::NOP), |case| {
            case.records.panic.operation = operation;
            case.records.panic.return_kind = kind;
        });
        cases.push(short_of_ergs(case.clone()));
        cases.push(case);
    }
    cases
}

fn nop_record() -> Vec<Case> {
    let mut cases = Vec::new();
    for operation in operation::ADD..=operation::RETURN {
        let case = with(calm::cycle(operation::NOP), |case| case.records.nop.operation = operation);
        cases.push(not_met(case.clone()));
        cases.push(case);
    }
    cases
}

/// Add, sub and near call, and any operation whose condition is not met.
fn ended() -> Vec<Case> {
    let at_0 = |operation| with(calm::cycle(operation), |case| calm::set_depth(&mut case.state, 0));
    let kept = (operation::ADD..=operation::NEAR_CALL).map(at_0);
    let not_kept = (operation::ADD..=operation::OTHER).map(at_0).map(not_met);
    kept.chain(not_kept).collect()
}

/// All operations from 0 to 4, a return ok and revert; then any operation that is not kept.
fn pending() -> Vec<Case> {
    let pending = |operation| with(calm::cycle(operation), |case| case.state.pending_exception = true);
    let kept = (operation::NOP..=operation::RETURN).map(pending);
    let revert = with(pending(operation::RETURN), |case| {
        case.records.plain.return_kind = return_kind::REVERT
    });
    let not_kept = (operation::NOP..=operation::OTHER).map(pending);
    let masked = not_kept.flat_map(|case| [not_met(case.clone()), short_of_ergs(case)]);
    kept.chain([revert]).chain(masked).collect()
}

fn depth_above() -> Vec<Case> {
    let above = |operation| {
        with(calm::cycle(operation), |case| {
            calm::set_depth(&mut case.state, BUILT_WITH.limit + 1)
        })
    };
    [operation::NOP, operation::ADD, operation::SUB, operation::RETURN]
        .map(above)
        .to_vec()
}

fn limit_0() -> Vec<Case> {
    let case = with(calm::cycle(operation::NOP), |case| case.settings.limit = 0);
    vec![with(case, |case| calm::set_depth(&mut case.state, 0))]
}

fn bad_field_alone() -> Vec<Case> {
    let mut cases = alone_each(|record| record.destination_kind = kind::IMMEDIATE);
    cases.extend(alone_each(|record| record.destination_kind = kind::CODE_PAGE));
    // a return has its kind
    let mut kinds = alone_each(|record| record.return_kind = 3);
    kinds.truncate(usize::from(operation::RETURN));
    cases.extend(kinds);
    // add and sub write there
    let to_16 = |operation| with(calm::alone(operation, 1), |case| case.records.plain.dst0 = 16);
    cases.extend([operation::NOP, operation::NEAR_CALL, operation::RETURN].map(to_16));
    cases
}

fn beyond_the_types() -> Vec<Case> {
    let changes: [fn(&mut Record); 5] = [
        |record| record.operation = 6,
        |record| (record.operation, record.return_kind) = (operation::RETURN, 3),
        |record| record.condition = 8,
        |record| record.source_kind = 6,
        |record| record.destination_kind = 6,
    ];
    let in_each = |change: fn(&mut Record)| {
        let case = || calm::cycle(operation::ADD);
        [
            with(case(), |case| change(&mut case.records.plain)),
            with(case(), |case| change(&mut case.records.panic)),
            with(case(), |case| change(&mut case.records.nop)),
        ]
    };
    changes.map(in_each).concat()
}

/// Operations that read no row, and a return above a row that is not good.
fn bad_row_unread() -> Vec<Case> {
    let bad = |mut case: Case| {
        case.state.saved[0].0[place::SP] = 1 << 16;
        case
    };
    let at_1 = (operation::NOP..=operation::NEAR_CALL).map(calm::cycle).map(bad);
    let at_2 = with(calm::cycle(operation::RETURN), |case| calm::set_depth(&mut case.state, 2));
    at_1.chain([bad(at_2)]).collect()
}
