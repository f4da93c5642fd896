//! Differences of shape.

use super::row::*;
use crate::case::*;
use crate::cases::calm;
use crate::oracle::BUILT_WITH;
use Rust::Finishes;

pub fn rows() -> Vec<Entry> {
    vec![
        no_case(
            "I18",
            "the store of a case has as many rows as the limit, and the Rust has no store",
        ),
        no_case("I19", "a case has no rows above the depth, and neither has the Rust"),
        row_with(Needs::LimitAbove1, "I20", other_constants, Finishes, Port::Another),
        no_case("I21", "the port has no such input"),
        row("I22", nop, Finishes, Port::Same).by("the nop"),
        row("I43", other_limit, Finishes, Port::Another),
        no_case("I44", "a case is a whole cycle, or execute alone in its turn"),
        no_case("I45", "the Rust has no tally"),
        no_case("I46", "what the Rust calls, the port answers: it is compared as such"),
        no_case("I47", "a case has the fields that both have"),
        row("I48", opening, Finishes, Port::Same).but_for("the cycle of opening"),
        row("I49", unwritten, Finishes, Port::Same).but_for("the time of a place that is not written"),
        no_case("I51", "execute alone is run from a state that keeps no location"),
        no_case("I52", "the Rust has no fee"),
    ]
}

fn other_constants() -> Vec<Case> {
    let multiplier = with(calm::cycle(operation::NEAR_CALL), |case| {
        case.settings.multiplier = if BUILT_WITH.multiplier == 1 { 2 } else { 1 };
        case.state.registers[0].value[0] = 1;
        case.records.plain.src0 = 1;
        case.state.current.0[place::ERGS] = 10;
    });
    let time_step = with(calm::cycle(operation::NOP), |case| {
        case.settings.time_step = if BUILT_WITH.time_step == 8 { 4 } else { 8 }
    });
    vec![multiplier, time_step]
}

/// The stand-in's, which sets pc.
fn nop() -> Vec<Case> {
    vec![calm::cycle(operation::NOP)]
}

/// A near call, and a return from what it opened: the word itself is the definition's.
fn opening() -> Vec<Case> {
    let call = with(calm::cycle(operation::NEAR_CALL), |case| {
        case.state.cycle_counter = 7;
        case.state.current.0[place::OPENING] = 3;
    });
    let back = with(calm::cycle(operation::RETURN), |case| {
        case.state.current.0[place::OPENING] = 7;
        case.state.saved[0].0[place::OPENING] = 3;
    });
    vec![call, back]
}

/// A place to write to, of operations that do not write.
fn unwritten() -> Vec<Case> {
    let of = |operation| {
        with(calm::cycle(operation), |case| {
            case.state.timestamp = 8;
            case.records.plain.destination_kind = kind::PUSH_POP;
        })
    };
    [operation::NOP, operation::NEAR_CALL, operation::RETURN].map(of).to_vec()
}

fn other_limit() -> Vec<Case> {
    vec![with(calm::cycle(operation::NOP), |case| case.settings.limit = 1)]
}
