//! The file and the rows that are run say the same.

use super::row::words;
use super::*;
use std::collections::BTreeSet;

const FILE: &str = include_str!("../../../docs/DIFFERENCES.md");

/// The columns of the file's rows, by name.
fn of_file() -> Vec<(&'static str, Vec<&'static str>)> {
    let columns = |line: &'static str| Vec::from_iter(line.trim_matches('|').split(" | ").map(str::trim));
    let is_row = |line: &&str| {
        line.strip_prefix("| I")
            .is_some_and(|rest| rest.starts_with(|c: char| c.is_ascii_digit()))
    };
    let rows = FILE.lines().filter(is_row).map(columns);
    rows.map(|columns| (columns[0], columns)).collect()
}

#[test]
fn every_row_is_named() {
    let file = Vec::from_iter(of_file().iter().map(|(name, _)| *name));
    let run = Vec::from_iter(rows().iter().map(|row| row.name));
    let distinct: BTreeSet<_> = run.iter().collect();
    assert_eq!(file, run);
    assert_eq!(distinct.len(), run.len());
}

/// The Rust's column has the function that panics, or says how else it ends; the port's has the stage and the refusal.
#[test]
fn rows_say_what_is_run() {
    for ((name, columns), row) in of_file().iter().zip(rows()) {
        let What::Run(run) = row.what else { continue };
        let (rust, port) = (columns[3], columns[4]);
        let in_rust = match run.rust {
            Rust::Panics(_, function) => format!("`{function}`"),
            Rust::Finishes => "finishes".into(),
            Rust::RunsAStandIn => "runs".into(),
            Rust::CannotBeStated => "cannot be stated".into(),
        };
        assert!(rust.contains(&in_rust), "{name}: {in_rust}");
        if let Port::Refuses(refusal) = run.port {
            assert!(port.contains(&words(refusal)), "{name}: {}", words(refusal));
        }
    }
}

/// The Rust's half of each row that can be run with this build; the other half needs the replay program.
#[test]
fn rust_does_what_rows_say() {
    let oracle = Oracle::new();
    for row in rows() {
        let What::Run(run) = row.what else { continue };
        for case in (run.cases)().into_iter().filter(|_| run.needs.is_met()) {
            let ran = oracle.run_anyway(&case);
            let outcome = ran.as_ref().map(|ran| &ran.outcome).ok();
            assert!(
                is_as_said(run.rust, outcome),
                "{}: {}",
                row.name,
                described(&case, outcome, "not asked")
            );
        }
    }
}
