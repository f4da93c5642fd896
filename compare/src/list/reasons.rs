//! Why a case is refused, in words: all that its refusal alone would be owed for.

use super::run::{name, Kept, Run};
use crate::case::*;

pub fn of(run: &Run, number: u32) -> Vec<String> {
    let Case { part, state, records, .. } = run.case;
    let reasons = match (number, &run.kept) {
        (1, _) => vec![format!("limit 0 {}", run.case.settings.limit == 0)],
        (3, _) if *part == Part::Execute => fields("plain", &records.plain),
        (3, _) => [record_reasons(records), plain_reasons(state, &records.plain)].concat(),
        (4, _) => vec![format!("fields outside {}", !record_reasons(records).is_empty())],
        (5, Some(kept)) => vec![format!("{:?}, local {}", kept.choice, run.current(place::LOCAL))],
        (6, Some(kept)) => pointers(run, kept),
        (7, Some(kept)) => vec![format!("{:?} {}, ended {}", kept.choice, name(kept.record), state.has_ended())],
        (8, _) => row_fields(state.saved.last()),
        _ => Vec::new(),
    };
    reasons.into_iter().map(|reason| format!("{part:?} {number}: {reason}")).collect()
}

/// Fields outside their lists.
pub fn fields(which: &str, record: &Record) -> Vec<String> {
    let fields = [
        ("operation", record.operation > operation::OTHER),
        ("return kind", record.return_kind > return_kind::PANIC),
        ("condition", record.condition > 7),
        ("source kind", record.source_kind > kind::ABSOLUTE_STACK),
        ("destination kind", record.destination_kind > kind::ABSOLUTE_STACK),
        ("destination an immediate", record.destination_kind == kind::IMMEDIATE),
        ("destination on the code page", record.destination_kind == kind::CODE_PAGE),
        ("src0", usize::from(record.src0) > REGISTERS),
        ("src1", usize::from(record.src1) > REGISTERS),
        ("dst0", usize::from(record.dst0) > REGISTERS),
    ];
    let outside = fields.iter().filter(|(_, is_outside)| *is_outside);
    outside.map(|(field, _)| format!("{which} {field}")).collect()
}

/// Fields of the three records, and masked records that are not what they should be.
pub fn record_reasons(records: &Records) -> Vec<String> {
    let Records { plain, panic, nop } = records;
    let mut reasons = fields("plain", plain);
    for (which, record, is_right) in [("panic", panic, panic.is_panic_return()), ("nop", nop, nop.is_nop())] {
        let outside = fields(which, record);
        if outside.is_empty() && !is_right {
            reasons.push(format!("{which} is {}", name(record)));
        }
        reasons.extend(outside);
    }
    reasons
}

/// A plain record that does not fit the state.
pub fn plain_reasons(state: &State, plain: &Record) -> Vec<String> {
    if !fields("plain", plain).is_empty() {
        return Vec::new();
    }
    let operation = operation::NAMES[usize::from(plain.operation)];
    let is_nop = plain.is_nop();
    let is_static = state.current.0[place::STATIC] == 1;
    let reasons = [
        (format!("ended, {operation}"), state.has_ended() && !is_nop),
        ("ended, explicit panic".into(), state.has_ended() && is_nop && plain.explicit_panic),
        (
            "ended, kernel only".into(),
            state.has_ended() && is_nop && plain.kernel_only && !state.current.is_kernel(),
        ),
        (
            "ended, not when static".into(),
            state.has_ended() && is_nop && !plain.allowed_when_static && is_static,
        ),
        (
            format!("pending, {}", name(plain)),
            state.pending_exception && !plain.is_panic_return(),
        ),
    ];
    let holding = reasons.into_iter().filter(|(_, is_holding)| *is_holding);
    holding.map(|(reason, _)| reason).collect()
}

/// Pointers in a place that may not hold one.
fn pointers(run: &Run, kept: &Kept) -> Vec<String> {
    let Kept { choice, record } = kept;
    let may_be = [record.src0_may_be_pointer, record.src1_may_be_pointer];
    let is_misplaced = |i: &usize| run.sources(record)[*i].is_pointer && !may_be[*i];
    let is_memory = |i: usize| record.source_kind != kind::REGISTER && record.swap == (i == 1);
    let reason = |i| format!("{choice:?} src{i}, swap {}, memory {}", record.swap, is_memory(i));
    (0..2).filter(is_misplaced).map(reason).collect()
}

/// Fields that make a row not good.
fn row_fields(row: Option<&Row>) -> Vec<String> {
    let is_bad = |place: &usize| {
        let mut lone = Row([0; ROW]);
        lone.0[*place] = row.map_or(0, |row| row.0[*place]);
        !lone.is_good()
    };
    (0..ROW).filter(is_bad).map(|place| format!("word {place} of the row")).collect()
}
