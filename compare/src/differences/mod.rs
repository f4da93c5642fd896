//! The rows of docs/DIFFERENCES.md: their smallest inputs on both sides.

mod left_out;
mod panics;
mod row;
mod shape;
#[cfg(test)]
mod tests;

use crate::case::Case;
use crate::format;
use crate::oracle::{Oracle, Outcome, BUILT_WITH};
use crate::places;
use crate::replay::Replay;
use row::{Entry, Port, Run, Rust, What};
use std::io;

/// All rows, in the file's order.
fn rows() -> Vec<Entry> {
    [panics::rows(), left_out::rows(), shape::rows()].concat()
}

/// A line for each row. `Ok(true)` where all that can be run hold.
pub fn run(replay: &str) -> io::Result<bool> {
    let mut replay = Replay::start(replay)?;
    let mut do_all_hold = true;
    for row in rows() {
        let name = row.name;
        match row.what {
            What::NoCase(why) => println!("{name} is no case: {why}"),
            What::Run(run) if !run.needs.is_met() => println!("{name} is not run: it needs {}", run.needs),
            What::Run(run) => match failure(&mut replay, &run)? {
                None => println!("{name} holds, {}: {run}", cases(&run)),
                Some(failure) => {
                    do_all_hold = false;
                    println!("{name} DOES NOT HOLD: {run}\n{failure}");
                }
            },
        }
    }
    replay.stop()?;
    Ok(do_all_hold)
}

fn cases(run: &Run) -> String {
    match (run.cases)().len() {
        1 => "1 case".into(),
        count => format!("{count} cases"),
    }
}

/// The first case of a row that is not as the row says.
fn failure(replay: &mut Replay, run: &Run) -> io::Result<Option<String>> {
    let oracle = Oracle::new();
    for case in (run.cases)() {
        let answer = replay.answer(&case)?;
        let ran = oracle.run_anyway(&case);
        let outcome = ran.as_ref().map(|ran| &ran.outcome).ok();
        if !is_as_said(run.rust, outcome) || !is_answered(run.port, outcome, &answer) {
            return Ok(Some(described(&case, outcome, &answer)));
        }
    }
    Ok(None)
}

/// `outcome` is there where the Rust can state the case.
fn is_as_said(rust: Rust, outcome: Option<&Outcome>) -> bool {
    match (rust, outcome) {
        (Rust::Finishes, Some(Outcome::Finished(_))) | (Rust::CannotBeStated, None) => true,
        (Rust::Panics(file, function), Some(Outcome::Panicked(place))) => {
            place.file == file && places::function_at(place).is_some_and(|name| name == function)
        }
        (Rust::RunsAStandIn, Some(Outcome::Panicked(place))) => places::function_at(place).is_none(),
        _ => false,
    }
}

fn is_answered(port: Port, outcome: Option<&Outcome>, answer: &str) -> bool {
    let is_ok = answer.starts_with("ok ");
    let is_same = outcome.is_some_and(|outcome| outcome.line() == answer);
    match port {
        Port::Refuses(refusal) => answer == refusal.to_string(),
        Port::Same => is_ok && is_same,
        Port::Another => is_ok && !is_same,
        Port::Finishes => is_ok,
    }
}

fn described(case: &Case, outcome: Option<&Outcome>, answer: &str) -> String {
    let rust = outcome.map_or("cannot state it".into(), Outcome::line);
    let words = format::case_in_words(case, BUILT_WITH);
    format!("  on {:?}: {words}\n  the Rust: {rust}\n  the port: {answer}", case.part)
}
