//! What the lists show, for the default settings.

use super::*;
use crate::case::*;
use crate::format::case_line;
use crate::oracle::{Answer, BUILT_WITH};
use crate::places::Place;

const COUNT: u64 = 650;

/// How often each label is there.
fn counts(labels: impl Iterator<Item = String>) -> HashMap<String, i32> {
    let mut counts = HashMap::new();
    labels.for_each(|label| *counts.entry(label).or_default() += 1);
    counts
}

fn assert_shown(wanted: &[String], shown: &HashMap<String, i32>) {
    for label in wanted {
        assert!(shown.get(label).is_some_and(|&times| times >= WANTED), "{label}");
    }
}

/// The refusals, each once.
fn numbers(answers: &[Answer]) -> Vec<u32> {
    let refusals = answers.iter().filter_map(|answer| answer.outcome.refusal());
    Vec::from_iter(refusals.map(|refusal| refusal.number).collect::<BTreeSet<_>>())
}

fn place(answer: &Answer) -> Option<&Place> {
    match &answer.outcome {
        Outcome::Panicked(place) => Some(place),
        _ => None,
    }
}

/// Operations with what a record says of them.
fn operation_labels() -> Vec<String> {
    let mut labels = Vec::new();
    for operation in &operation::NAMES[..5] {
        labels.extend((0..6).map(|kind| format!("Plain {operation}, source kind {kind}")));
        labels.extend([0, 2, 3, 5].map(|kind| format!("Plain {operation}, destination kind {kind}")));
        labels.extend((0..8).map(|condition| format!("{operation}, condition {condition}, met true")));
        labels.extend((1..8).map(|condition| format!("{operation}, condition {condition}, met false")));
        labels.extend((0..5).map(|flag| format!("{operation}, error flag {flag}")));
    }
    for part in ["Cycle", "Execute"] {
        labels.extend((-2..=2).map(|distance| format!("{part}: near call, opening of the caller and counter {distance}")));
        let openings = [-2, 0, 2].map(|distance| format!("{part}: return, openings of the closed frame and the caller {distance}"));
        labels.extend(openings);
    }
    for kind in ["ok", "revert", "panic"] {
        labels.extend([true, false].map(|to_label| format!("Cycle: Plain return {kind}, to label {to_label}")));
        labels.extend([true, false].map(|to_label| format!("Execute: Plain return {kind}, to label {to_label}")));
    }
    labels
}

/// Edges, each with what is next to it.
fn edge_labels() -> Vec<String> {
    let mut labels = Vec::new();
    for distance in -2..=2 {
        labels.push(format!("price and ergs {distance}, ended false"));
        labels.push(format!("Cycle: near call wants and holds {distance}, cut false"));
        labels.push(format!("Execute: near call wants and holds {distance}, cut false"));
        labels.push(format!("address of a source and 65536 {distance}"));
        labels.push(format!("push, sp and 65536 {distance}"));
        let sums = ["pubdata sum", "pubdata sum below 0", "counter", "counter below 0", "ergs sum"];
        labels.extend(sums.map(|sum| format!("{sum} {distance}")));
        labels.extend(["heap bound", "aux heap bound", "time after the cycle"].map(|sum| format!("{sum} {distance}")));
    }
    for number in 0..16 {
        labels.extend(["src0", "src1", "dst0"].map(|place| format!("{place} is register {number}")));
    }
    labels.extend((0..=BUILT_WITH.limit).map(|depth| format!("depth {depth}")));
    labels.extend(["pop at sp 0", "push at sp and the last 0", "Execute refused 14 3"].map(String::from));
    labels
}

#[test]
fn list_shows_the_domain() {
    let cases = answered(1, COUNT);
    let oracle = Oracle::new();
    let answers: Vec<_> = cases.iter().map(|case| oracle.run(case)).collect();
    let runs = cases.iter().zip(&answers).map(|(case, answer)| Run::new(case, answer));
    let shown = counts(runs.flat_map(|run| labels::of(&run)));
    assert_shown(&operation_labels(), &shown);
    assert_shown(&edge_labels(), &shown);

    assert_eq!(numbers(&answers), [4, 8, 9, 10, 11, 12, 13, 14]);
    let places: BTreeSet<_> = answers.iter().filter_map(place).collect();
    assert_eq!(places.len(), 13, "not all places of the table: {places:?}");

    let alone = cases.iter().filter(|case| case.part == Part::Execute).count();
    assert!(cases.len() / 20 < alone && alone < cases.len() / 5, "{alone} are alone");
    let bytes: usize = cases.iter().map(|case| case_line(case).len()).sum();
    assert!(bytes / cases.len() < 800, "{bytes} bytes");
}

/// Fields outside their lists, and records that do not fit the state.
fn reason_labels() -> Vec<String> {
    let fields = [
        "operation",
        "return kind",
        "condition",
        "source kind",
        "destination kind",
        "destination an immediate",
        "destination on the code page",
        "src0",
        "src1",
        "dst0",
    ];
    let mut labels = Vec::new();
    for record in ["plain", "panic", "nop"] {
        labels.extend(fields.map(|field| format!("Cycle 3: {record} {field}")));
    }
    labels.extend(fields.map(|field| format!("Execute 3: plain {field}")));
    labels.extend(["add", "sub", "near call", "return", "other"].map(|operation| format!("Cycle 3: ended, {operation}")));
    labels.extend(["explicit panic", "kernel only", "not when static"].map(|flag| format!("Cycle 3: ended, {flag}")));
    labels.extend(["nop", "add", "return ok", "return revert"].map(|operation| format!("Cycle 3: pending, {operation}")));
    labels.extend(["return ok", "return revert", "nop"].map(|operation| format!("Cycle 3: panic is {operation}")));
    labels.extend(["add", "sub", "near call", "return ok"].map(|operation| format!("Cycle 3: nop is {operation}")));
    labels
}

#[test]
fn list_outside_shows_the_rest() {
    let cases = outside(1, 0);
    let oracle = Oracle::new();
    let answers: Vec<_> = cases.iter().map(|case| oracle.run(case)).collect();
    let owed = |answer: &Answer| answer.outcome.refusal().map_or(0, |refusal| refusal.number);
    let runs = cases
        .iter()
        .zip(&answers)
        .map(|(case, answer)| (Run::new(case, answer), owed(answer)));
    let shown = counts(runs.flat_map(|(run, number)| reasons::of(&run, number)));
    assert_shown(&reason_labels(), &shown);
    assert_eq!(numbers(&answers), [1, 3, 4, 5, 6, 7, 8]);
    assert!(
        answers.iter().filter_map(place).all(|place| place.line == 136),
        "a panic of another refusal than 4"
    );
}
