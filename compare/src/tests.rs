//! Document 01's edges on the Rust, execute alone, the case format, and what the cases reach. For the default settings.

use crate::case::*;
use crate::cases;
use crate::cases::calm::{self, alone};
use crate::format::{case_line, finished_line, finished_names, read_case};
use crate::oracle::{Oracle, Outcome, BUILT_WITH};
use std::collections::BTreeSet;

const MOST: Word = [u64::MAX; 4];

fn finish(case: &Case) -> Finished {
    match Oracle::new().run(case).outcome {
        Outcome::Finished(finished) => *finished,
        other => panic!("{}", other.line()),
    }
}

fn before(finished: &Finished) -> BeforeExecute {
    finished.before.expect("a whole cycle")
}

fn refusal(case: &Case) -> u32 {
    let outcome = Oracle::new().run(case).outcome;
    outcome.refusal().map_or(0, |refusal| refusal.number)
}

#[test]
fn price_and_ergs() {
    let mut case = calm::cycle(operation::NOP);
    case.state.current.0[place::ERGS] = 100;
    case.records.plain.price = 100;
    let covered = finish(&case);
    assert_eq!((before(&covered).charge, before(&covered).error_flags), (100, 0));
    case.records.plain.price = 101;
    let short = finish(&case);
    assert_eq!((before(&short).charge, before(&short).error_flags), (100, 2));
    assert_eq!(short.event, Event::Closed { panicked: true });
}

#[test]
fn ergs_of_a_near_call() {
    for (want, given) in [(300, 300), (0, 969), (969, 969), (970, 969)] {
        let mut case = calm::cycle(operation::NEAR_CALL);
        case.state.current.0[place::ERGS] = 969;
        case.state.registers[0].value[0] = want;
        case.records.plain.src0 = 1;
        let state = finish(&case).state;
        assert_eq!((state.current.0[place::ERGS], state.saved[1].0[place::ERGS]), (given, 969 - given));
    }
}

#[test]
fn cycles_of_opening() {
    let mut call = calm::cycle(operation::NEAR_CALL);
    call.state.cycle_counter = 7;
    call.state.current.0[place::OPENING] = 3;
    let called = finish(&call).state;
    assert_eq!((called.current.0[place::OPENING], called.saved[1].0[place::OPENING]), (7, 3));
    let mut back = calm::cycle(operation::RETURN);
    back.state.current.0[place::OPENING] = 7;
    back.state.saved[0].0[place::OPENING] = 3;
    assert_eq!(finish(&back).state.current.0[place::OPENING], 3);
}

#[test]
fn stack_pointer() {
    // sp, pop and push, index read, index written, sp after
    let edges = [
        (0, Some(1), None, 65_535, 0, 65_535),
        (65_535, None, Some(1), 0, 65_535, 0),
        (10, Some(1), Some(2), 9, 9, 11),
    ];
    for (sp, pop, push, read, written, after) in edges {
        let mut case = calm::cycle(operation::ADD);
        case.state.current.0[place::SP] = sp;
        let plain = &mut case.records.plain;
        plain.source_kind = pop.map_or(kind::REGISTER, |_| kind::PUSH_POP);
        plain.destination_kind = push.map_or(kind::REGISTER, |_| kind::PUSH_POP);
        plain.imm_0 = pop.unwrap_or(0);
        plain.imm_1 = push.unwrap_or(0);
        let finished = finish(&case);
        let index = |location: Option<Location>| location.map_or(0, |location| location.index);
        assert_eq!(
            (index(before(&finished).source), index(before(&finished).destination)),
            (read, written)
        );
        assert_eq!(finished.state.current.0[place::SP], after);
    }
}

#[test]
fn times_of_locations() {
    let time = |location: Option<Location>| location.map(|location| location.time);
    let edges = [
        (operation::NOP, None, 0, None),
        (operation::ADD, Some(8), 11, Some(11)),
        (operation::SUB, Some(8), 11, Some(11)),
        (operation::NEAR_CALL, Some(8), 0, None),
        (operation::RETURN, Some(8), 0, None),
    ];
    for (operation, read, destination, write) in edges {
        let mut case = calm::cycle(operation);
        (case.state.timestamp, case.state.previous_code_page) = (8, 1);
        let plain = &mut case.records.plain;
        (plain.source_kind, plain.destination_kind) = (kind::PUSH_POP, kind::PUSH_POP);
        let finished = finish(&case);
        let before = before(&finished);
        assert_eq!(time(before.code_read), Some(8));
        assert_eq!((time(before.source), time(before.destination)), (read, Some(destination)));
        assert_eq!(time(finished.write.map(|write| write.location)), write);
    }
}

#[test]
fn time_of_a_masked_write() {
    let mut case = calm::cycle(operation::ADD);
    case.records.plain.destination_kind = kind::PUSH_POP;
    case.records.panic.destination_kind = kind::PUSH_POP;
    (case.state.timestamp, case.records.plain.explicit_panic) = (8, true);
    let finished = finish(&case);
    assert_eq!(before(&finished).destination.map(|destination| destination.time), Some(0));
    assert_eq!(finished.write, None);
}

/// The Rust clears a misplaced pointer's metadata and panics at the time of the write: operands refuses that, before execute would give 6.
#[test]
fn late_write_of_a_pointer() {
    let mut case = calm::cycle(operation::ADD);
    case.state.registers[0].is_pointer = true;
    case.state.current.0[place::ADDRESSES] = 1;
    case.records.plain.src0 = 1;
    assert_eq!(refusal(&case), 6);
    case.records.plain.destination_kind = kind::PUSH_POP;
    case.state.timestamp = u32::MAX - 2;
    assert_eq!(refusal(&case), 14);
}

#[test]
fn flags_of_add_and_sub() {
    let edges = [
        (operation::ADD, MOST, [1, 0, 0, 0], [0; 4], [true, true, false]),
        (operation::SUB, [0; 4], [1, 0, 0, 0], MOST, [true, false, false]),
        (operation::SUB, [5, 0, 0, 0], [5, 0, 0, 0], [0; 4], [false, true, false]),
    ];
    for (operation, a, b, result, flags) in edges {
        let mut case = calm::cycle(operation);
        case.state.registers[0].value = a;
        case.state.registers[1].value = b;
        let plain = &mut case.records.plain;
        (plain.src0, plain.src1, plain.dst0, plain.set_flags) = (1, 2, 3, true);
        let state = finish(&case).state;
        assert_eq!((state.registers[2].value, state.flags), (result, flags));
    }
}

#[test]
fn last_pc() {
    let mut case = calm::cycle(operation::NOP);
    case.state.current.0[place::PC] = 65_535;
    case.code_word = [7, 8, 9, 10];
    let finished = finish(&case);
    assert_eq!(before(&finished).code_read.map(|read| read.index), Some(16_383));
    assert_eq!(before(&finished).fetch, Fetch::Code(7));
    assert_eq!(finished.state.current.0[place::PC], 0);
}

#[test]
fn pubdata_of_a_return() {
    let mut case = calm::cycle(operation::RETURN);
    case.state.saved[0].0[place::PUBDATA] = i32::MAX as u32;
    case.state.current.0[place::PUBDATA] = 1;
    assert_eq!(refusal(&case), 10);

    let mut case = calm::cycle(operation::RETURN);
    case.state.revert_counter = u32::MAX;
    assert_eq!(refusal(&case), 11);

    let mut case = calm::cycle(operation::RETURN);
    case.records.plain.return_kind = return_kind::PANIC;
    case.state.revert_counter = 5;
    for (child, after) in [(5, 0), (-3, 8)] {
        case.state.current.0[place::PUBDATA] = child as u32;
        assert_eq!(finish(&case).state.revert_counter, after);
    }
    case.state.current.0[place::PUBDATA] = 6;
    assert_eq!(refusal(&case), 11);
}

/// No whole cycle comes to these two refusals.
#[test]
fn ends_of_execute_alone() {
    let limit = BUILT_WITH.limit;
    for kind in 0..3 {
        let mut case = alone(operation::RETURN, 0);
        case.records.plain.return_kind = kind;
        assert_eq!(refusal(&case), 8);
        case.state.current.0[place::LOCAL] = 0;
        assert_eq!(refusal(&case), 7);
    }
    assert_eq!(refusal(&alone(operation::NEAR_CALL, limit)), 9);
    assert_eq!(finish(&alone(operation::NEAR_CALL, limit - 1)).state.depth(), limit);
    assert_eq!(finish(&alone(operation::RETURN, limit)).state.depth(), limit - 1);
}

#[test]
fn what_execute_alone_changes() {
    // depth, time and pc after it
    for (depth, time, pc) in [(0, 70, 9), (1, 74, 10)] {
        let mut case = alone(operation::NEAR_CALL, depth);
        case.state.timestamp = 70;
        case.state.current.0[place::PC] = 9;
        case.state.current.0[place::ERGS] = 5;
        case.records.plain.imm_0 = 1000;
        let finished = finish(&case);
        let caller = finished.state.saved.last().map(|row| row.0[place::PC]);
        assert_eq!((finished.state.timestamp, finished.state.cycle_counter), (time, 1));
        assert_eq!((caller, finished.state.current.0[place::PC]), (Some(pc), 1000));
        assert_eq!((finished.before, finished.event), (None, Event::Opened));
    }
}

#[test]
fn what_execute_alone_looks_at() {
    let mut case = alone(operation::RETURN, 1);
    case.records.panic.operation = 6;
    case.records.nop.dst0 = 16;
    assert_eq!(finish(&case).state.depth(), 0);
    case.records.plain.dst0 = 16;
    assert_eq!(refusal(&case), 3);

    let mut case = alone(operation::NEAR_CALL, 1);
    case.state.cycle_counter = u32::MAX;
    assert_eq!(refusal(&case), 14);
    case.state.cycle_counter = 0;
    case.state.timestamp = u32::MAX - BUILT_WITH.time_step + 1;
    assert_eq!(refusal(&case), 14);
    case.state.current.0[place::ADDRESSES] = 1;
    case.state.registers[0].is_pointer = true;
    case.records.plain.src0 = 1;
    assert_eq!(refusal(&case), 6);
}

#[test]
fn lines_are_read_back() {
    for number in 0..500 {
        let case = cases::case(1, number);
        let line = case_line(&case);
        assert_eq!(read_case(line.as_bytes()), Some(case));
        for bad in [
            format!("{line} 0"),
            format!("{line} "),
            format!(" {line}"),
            format!("+{line}"),
            line.replacen(' ', "  ", 1),
        ] {
            assert_eq!(read_case(bad.as_bytes()), None);
        }
        assert_eq!(line.rsplit_once(' ').and_then(|(start, _)| read_case(start.as_bytes())), None);
    }
}

#[test]
fn every_field_has_a_name() {
    for case in [calm::cycle(operation::NOP), alone(operation::NOP, 1)] {
        let finished = finish(&case);
        assert_eq!(finished_names(&finished).len(), finished_line(&finished).split(' ').count() - 1);
    }
}

/// What the whole cycles of one seed reach: all operations, kinds, conditions and flags that finish, and every place of the table but two.
#[test]
fn cases_reach_the_domain() {
    let oracle = Oracle::new();
    let mut finished = BTreeSet::new();
    let mut refused = BTreeSet::new();
    for case in cases::all(1, 20_000).filter(|case| case.part == Part::Cycle) {
        let answer = oracle.run(&case);
        let plain = &case.records.plain;
        refused.extend(answer.outcome.refusal().map(|refusal| refusal.number));
        let (Outcome::Finished(cycle), Some(kept)) = (&answer.outcome, answer.kept) else {
            continue;
        };
        let before = before(cycle);
        finished.insert(("operation", u64::from(case.records.kept(kept).operation)));
        finished.insert(("condition", plain.condition.into()));
        finished.insert(("depth", case.state.depth().into()));
        finished.insert(("error flags", before.error_flags & before.error_flags.wrapping_neg()));
        finished.insert(("code read", before.code_read.is_some().into()));
        if before.error_flags == 0 {
            finished.insert(("source kind", plain.source_kind.into()));
            finished.insert(("destination kind", plain.destination_kind.into()));
            finished.insert(("return kind", plain.return_kind.into()));
        }
    }
    let count = |name| finished.iter().filter(|entry| entry.0 == name).count();
    assert_eq!(["operation", "condition", "code read"].map(count), [5, 8, 2]);
    assert_eq!(["source kind", "destination kind", "return kind"].map(count), [6, 4, 3]);
    assert_eq!(["depth", "error flags"].map(count), [BUILT_WITH.limit as usize + 1, 6]);
    assert_eq!(Vec::from_iter(refused), [1, 3, 4, 5, 6, 7, 10, 11, 12, 13, 14]);
}

/// The same for execute alone, with the two refusals that no whole cycle comes to.
#[test]
fn cases_reach_execute_alone() {
    let oracle = Oracle::new();
    let mut events = BTreeSet::new();
    let mut refused = BTreeSet::new();
    let mut panicked_at_0 = BTreeSet::new();
    for case in cases::all(1, 20_000).filter(|case| case.part == Part::Execute) {
        let outcome = oracle.run(&case).outcome;
        let plain = &case.records.plain;
        let number = outcome.refusal().map(|refusal| refusal.number);
        refused.extend(number);
        match outcome {
            Outcome::Finished(finished) if plain.operation >= operation::NEAR_CALL => {
                let kind = if plain.operation == operation::RETURN {
                    plain.return_kind
                } else {
                    0
                };
                events.insert((plain.operation, kind, finished.event));
            }
            Outcome::Panicked(_) if case.state.has_ended() => panicked_at_0.extend(number),
            _ => {}
        }
    }
    let reached = [
        (operation::NEAR_CALL, 0, Event::Opened),
        (operation::RETURN, return_kind::OK, Event::Closed { panicked: false }),
        (operation::RETURN, return_kind::REVERT, Event::Closed { panicked: true }),
        (operation::RETURN, return_kind::PANIC, Event::Closed { panicked: true }),
    ];
    assert_eq!(Vec::from_iter(events), reached);
    assert_eq!(Vec::from_iter(refused), [1, 3, 5, 6, 7, 8, 9, 10, 11, 12, 13, 14]);
    assert_eq!(Vec::from_iter(panicked_at_0), [8]);
}
