//! Compares the port with the Rust that it was made from, cycle by cycle, and execute alone from states in mid-cycle.

mod alone;
mod case;
mod cases;
mod compare;
mod convert;
mod differences;
mod format;
mod list;
mod machine;
mod oracle;
mod outside;
mod places;
mod random;
mod replay;
#[cfg(test)]
mod tests;

use case::Case;
use oracle::{Oracle, Outcome};
use std::io::{self, BufRead, BufWriter, Write};
use std::process::ExitCode;

const USAGE: &str = "usage: compare cases SEED COUNT            print cases
       compare list SEED COUNT            print short cases that show all there is in the domain
       compare list-outside SEED COUNT    the same for what is refused outside it
       compare list-unread SEED           lines that cannot be read, or only just
       compare oracle < CASES             what the Rust does on each
       compare expected < CASES           what the port owes on each
       compare run REPLAY_BIN SEED COUNT  compare the two
       compare outside REPLAY_BIN SEED COUNT  what both do outside the domain
       compare differences REPLAY_BIN     the rows of docs/DIFFERENCES.md";

fn main() -> ExitCode {
    let arguments: Vec<String> = std::env::args().skip(1).collect();
    let arguments: Vec<&str> = arguments.iter().map(String::as_str).collect();
    let done = match arguments.as_slice() {
        ["cases", seed, count] => print_cases(seed, count, cases::all),
        ["list", seed, count] => print_cases(seed, count, list::answered),
        ["list-outside", seed, count] => print_cases(seed, count, list::outside),
        ["list-unread", seed] => seed.parse().ok().map(|seed| print_lines(&list::unread::lines(seed)).map(|()| true)),
        ["oracle"] => Some(answer_cases(Outcome::line).map(|()| true)),
        ["expected"] => Some(answer_cases(expected).map(|()| true)),
        ["run", replay, seed, count] => numbers(seed, count).map(|(seed, count)| compare::run(replay, seed, count)),
        ["outside", replay, seed, count] => numbers(seed, count).map(|(seed, count)| outside::run(replay, seed, count)),
        ["differences", replay] => Some(differences::run(replay)),
        _ => None,
    };
    match done {
        Some(Ok(true)) => ExitCode::SUCCESS,
        Some(Ok(false)) => ExitCode::from(1),
        Some(Err(error)) => {
            eprintln!("compare: {error}");
            ExitCode::from(2)
        }
        None => {
            eprintln!("{USAGE}");
            ExitCode::from(2)
        }
    }
}

fn numbers(seed: &str, count: &str) -> Option<(u64, u64)> {
    Some((seed.parse().ok()?, count.parse().ok()?))
}

/// Prints the cases that `make` gives, or nothing where the two are not numbers.
fn print_cases<Cases: IntoIterator<Item = Case>>(seed: &str, count: &str, make: fn(u64, u64) -> Cases) -> Option<io::Result<bool>> {
    let (seed, count) = numbers(seed, count)?;
    Some(compare::write_cases(io::stdout(), make(seed, count)).map(|()| true))
}

fn print_lines(lines: &[String]) -> io::Result<()> {
    let mut out = BufWriter::new(io::stdout().lock());
    lines.iter().try_for_each(|line| writeln!(out, "{line}"))?;
    out.flush()
}

/// Prints a line for each case of the standard input.
fn answer_cases(line: fn(&Outcome) -> String) -> io::Result<()> {
    let oracle = Oracle::new();
    let mut out = BufWriter::new(io::stdout().lock());
    for text in io::stdin().lock().split(b'\n') {
        let answer = match format::read_case(&text?) {
            Some(case) => line(&oracle.run(&case).outcome),
            None => "unread".into(),
        };
        writeln!(out, "{answer}")?;
    }
    out.flush()
}

/// The result line that the port owes; `outside` where it owes nothing.
fn expected(outcome: &Outcome) -> String {
    match outcome.refusal() {
        Some(refusal) => refusal.to_string(),
        None => outcome.line(),
    }
}
