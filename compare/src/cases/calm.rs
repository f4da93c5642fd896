//! The smallest cases: one thing is changed in them at a time.

use crate::case::*;
use crate::oracle::BUILT_WITH;

/// A whole cycle at depth 1 in a local frame, all else 0 or no, but for the masked records' operations.
pub fn cycle(operation: u8) -> Case {
    let mut current = Row([0; ROW]);
    current.0[place::LOCAL] = 1;
    let record = |operation, return_kind| Record {
        operation,
        return_kind,
        ..Record::default()
    };
    Case {
        part: Part::Cycle,
        settings: BUILT_WITH,
        state: State {
            registers: Default::default(),
            flags: [false; 3],
            timestamp: 0,
            cycle_counter: 0,
            pending_exception: false,
            previous_code_word: [0; 4],
            previous_code_page: 0,
            previous_super_pc: 0,
            revert_counter: 0,
            current,
            saved: vec![Row([0; ROW])],
        },
        records: Records {
            plain: record(operation, return_kind::OK),
            panic: record(operation::RETURN, return_kind::PANIC),
            nop: record(operation::NOP, return_kind::OK),
        },
        code_word: [0; 4],
        source: Register::default(),
    }
}

/// The same about execute alone, at this depth.
pub fn alone(operation: u8, depth: u32) -> Case {
    let mut case = cycle(operation);
    case.part = Part::Execute;
    set_depth(&mut case.state, depth);
    case
}

/// So many saved rows, all 0.
pub fn set_depth(state: &mut State, depth: u32) {
    state.saved = vec![Row([0; ROW]); depth as usize];
}
