//! Sums and bounds of a whole cycle that can be refused, against the last that is not.

use super::run::Run;
use crate::case::*;
use crate::oracle::BUILT_WITH;
use crate::places::{Refusal, EXECUTE, OPERANDS};

/// A sum, the refusal that looks at it, and how far it is past the last that fits.
struct Edge {
    refusal: Refusal,
    name: &'static str,
    past: i64,
}

const LAST: i64 = u32::MAX as i64;
const LAST_SIGNED: i64 = i32::MAX as i64;

/// A distance; from 2 on they count as the same.
pub fn about(distance: i64) -> i64 {
    distance.clamp(-2, 2)
}

/// Where the case finished, all of its sums; where it was refused, the one that is past its last.
pub fn of(run: &Run, record: &Record) -> Vec<String> {
    let refusal = run.outcome.refusal();
    let mut edges = times(run, record);
    edges.extend(pages(run, record));
    if let Some(caller) = run.case.state.saved.last().filter(|_| record.operation == operation::RETURN) {
        edges.extend(sums(run, record, caller));
    }
    edges.retain(|edge| refusal.is_none_or(|refusal| refusal == edge.refusal && edge.past > 0));
    let label = |edge: Edge| format!("{} {}", edge.name, about(edge.past));
    edges.into_iter().map(label).collect()
}

/// Of execute.
fn edge(number: u32, name: &'static str, past: i64) -> Edge {
    let stage = EXECUTE;
    let refusal = Refusal { number, stage };
    Edge { refusal, name, past }
}

/// Refusal 14 of operands.
fn place_edge(name: &'static str, past: i64) -> Edge {
    let refusal = Refusal {
        number: 14,
        stage: OPERANDS,
    };
    Edge { refusal, name, past }
}

fn times(run: &Run, record: &Record) -> Vec<Edge> {
    let state = &run.case.state;
    let time = i64::from(state.timestamp);
    let mut edges = vec![edge(14, "cycle counter", i64::from(state.cycle_counter) + 1 - LAST)];
    if !state.has_ended() {
        edges.push(edge(14, "time after the cycle", time + i64::from(BUILT_WITH.time_step) - LAST));
    }
    let is_stored = record.destination_kind != kind::REGISTER;
    if is_stored && matches!(record.operation, operation::ADD | operation::SUB) {
        edges.push(place_edge("time of a write", time + 3 - LAST));
    }
    edges
}

fn pages(run: &Run, record: &Record) -> Option<Edge> {
    let is_stack = |number| matches!(number, kind::PUSH_POP | kind::STACK_OFFSET | kind::ABSOLUTE_STACK);
    let is_used = is_stack(record.source_kind) || is_stack(record.destination_kind);
    let page = i64::from(run.current(place::BASE_PAGE)) + 1;
    is_used.then(|| place_edge("stack page", page - LAST))
}

fn sums(run: &Run, record: &Record, caller: &Row) -> Vec<Edge> {
    let signed = |word: u32| i64::from(word as i32);
    let spent = signed(run.current(place::PUBDATA));
    let counter = signed(run.case.state.revert_counter);
    let missing = |place: usize| i64::from(caller.0[place]) - i64::from(run.current(place));
    let mut edges = vec![
        edge(12, "ergs sum", i64::from(caller.0[place::ERGS]) + i64::from(run.held()) - LAST),
        edge(13, "heap bound", missing(place::HEAP_BOUND)),
        edge(13, "aux heap bound", missing(place::AUX_HEAP_BOUND)),
    ];
    if record.return_kind == return_kind::OK {
        let sum = signed(caller.0[place::PUBDATA]) + spent;
        edges.push(edge(10, "pubdata sum", sum - LAST_SIGNED));
        edges.push(edge(10, "pubdata sum below 0", -LAST_SIGNED - 1 - sum));
        edges.push(edge(11, "counter as it is below 0", -counter));
    } else {
        edges.push(edge(11, "counter", counter - spent - LAST_SIGNED));
        edges.push(edge(11, "counter below 0", spent - counter));
    }
    edges
}
