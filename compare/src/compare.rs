//! Runs the Rust and a replay program on the same cases and compares every field.

use crate::case::{operation, Case, Part};
use crate::cases;
use crate::format;
use crate::oracle::{Answer, Oracle, Outcome};
use crate::places::{self, Place, Refusal};
use std::collections::BTreeMap;
use std::io::{self, BufRead, BufReader, BufWriter, Write};
use std::process::{Command, Stdio};
use std::thread;

/// Cases between two progress lines.
const PROGRESS: u64 = 50_000;

/// What is counted over all cases of one part.
#[derive(Default)]
struct Counts {
    by_operation: BTreeMap<(Option<u8>, &'static str), u64>,
    by_answer: BTreeMap<&'static str, u64>,
    by_refusal: BTreeMap<Refusal, u64>,
    by_place: BTreeMap<Place, u64>,
}

impl Counts {
    fn add(&mut self, case: &Case, answer: &Answer) {
        let name = match &answer.outcome {
            Outcome::Finished(_) => "finished",
            Outcome::Panicked(_) => "panicked",
            Outcome::Refused(_) => "refused by document 01",
            Outcome::Outside(_) => "outside",
        };
        let operation = answer.kept.map(|choice| case.records.kept(choice).operation);
        *self.by_answer.entry(name).or_default() += 1;
        *self.by_operation.entry((operation, name)).or_default() += 1;
        if let Some(refusal) = answer.outcome.refusal() {
            *self.by_refusal.entry(refusal).or_default() += 1;
        }
        if let Outcome::Panicked(place) = &answer.outcome {
            *self.by_place.entry(place.clone()).or_default() += 1;
        }
    }

    fn print(&self, out: &mut impl Write, part: Part) -> io::Result<()> {
        let part = match part {
            Part::Cycle => "whole cycles",
            Part::Execute => "execute alone",
        };
        writeln!(out, "{part}, by operation kept:")?;
        for ((kept, answer), count) in &self.by_operation {
            let name = kept.map_or("none kept", |number| operation::NAMES[usize::from(number)]);
            writeln!(out, "  {name}, {answer}: {count}")?;
        }
        writeln!(out, "{part}, by answer of the Rust:")?;
        for (answer, count) in &self.by_answer {
            writeln!(out, "  {answer}: {count}")?;
        }
        writeln!(out, "{part}, by refusal owed:")?;
        for (refusal, count) in &self.by_refusal {
            writeln!(out, "  {refusal}: {count}")?;
        }
        writeln!(out, "{part}, by place of a panic:")?;
        for (place, count) in &self.by_place {
            writeln!(out, "  {place} ({}): {count}", places::meaning_of(place))?;
        }
        Ok(())
    }
}

/// A case on which the two differ.
struct Difference {
    number: u64,
    case: String,
    rust: String,
    replay: String,
    /// what differs, a line each
    fields: Vec<String>,
}

/// Compares `count` cases. `Ok(true)` where no difference was found.
pub fn run(replay: &str, seed: u64, count: u64) -> io::Result<bool> {
    let mut child = Command::new(replay)
        .stdin(Stdio::piped())
        .stdout(Stdio::piped())
        .spawn()
        .map_err(|error| io::Error::new(error.kind(), format!("{replay}: {error}")))?;
    let (Some(input), Some(output)) = (child.stdin.take(), child.stdout.take()) else {
        return Err(io::Error::other("the replay program has no standard input or output"));
    };
    // the writer makes the cases a second time, so that none has to be kept
    let writer = thread::spawn(move || write_cases(input, cases::all(seed, count)));
    let is_equal = compare_answers(BufReader::new(output), seed, count);
    let written = writer
        .join()
        .map_err(|_| io::Error::other("the thread that writes the cases panicked"))?;
    let status = child.wait()?;
    if !is_equal? {
        // a program that answers too little may have stopped reading, too
        return Ok(false);
    }
    written?;
    if !status.success() {
        return Err(io::Error::other(format!("{replay}: {status}")));
    }
    Ok(true)
}

pub fn write_cases(out: impl Write, cases: impl IntoIterator<Item = Case>) -> io::Result<()> {
    let mut out = BufWriter::new(out);
    for case in cases {
        writeln!(out, "{}", format::case_line(&case))?;
    }
    out.flush()
}

fn compare_answers(replay: impl BufRead, seed: u64, count: u64) -> io::Result<bool> {
    let oracle = Oracle::new();
    let mut lines = replay.lines();
    let mut counts: BTreeMap<Part, Counts> = BTreeMap::new();
    let mut differing = 0u64;
    let mut smallest: Option<Difference> = None;
    for (number, case) in (0..).zip(cases::all(seed, count)) {
        let answer = oracle.run(&case);
        counts.entry(case.part).or_default().add(&case, &answer);
        let Some(line) = lines.next().transpose()? else {
            println!("the replay program answered {number} cases of {count}");
            return Ok(false);
        };
        if let Some(difference) = difference(number, &case, &answer.outcome, line) {
            differing += 1;
            let is_smaller = |other: &Difference| difference.case.len() < other.case.len();
            if smallest.as_ref().is_none_or(is_smaller) {
                smallest = Some(difference);
            }
        }
        if (number + 1) % PROGRESS == 0 {
            println!("{} cases, {differing} differences", number + 1);
        }
    }
    let mut out = io::stdout().lock();
    counts.iter().try_for_each(|(&part, counts)| counts.print(&mut out, part))?;
    writeln!(out, "{count} cases of seed {seed}, {differing} differences")?;
    if lines.next().is_some() {
        writeln!(out, "the replay program answered more than {count} cases")?;
        return Ok(false);
    }
    let Some(smallest) = smallest else { return Ok(true) };
    print_difference(&mut out, &smallest)?;
    Ok(false)
}

fn print_difference(out: &mut impl Write, difference: &Difference) -> io::Result<()> {
    writeln!(out, "the smallest case that differs is number {}:", difference.number)?;
    writeln!(out, "{}", difference.case)?;
    writeln!(out, "the Rust: {}", difference.rust)?;
    writeln!(out, "the replay: {}", difference.replay)?;
    difference.fields.iter().try_for_each(|field| writeln!(out, "  {field}"))
}

/// Where the replay's line is not what the Rust's outcome asks for.
fn difference(number: u64, case: &Case, outcome: &Outcome, replay: String) -> Option<Difference> {
    let fields = match (outcome, outcome.refusal()) {
        (Outcome::Finished(finished), _) => {
            let rust = format::finished_line(finished);
            if rust == replay {
                return None;
            }
            differing_fields(&format::finished_names(finished), &rust, &replay)
        }
        (_, Some(owed)) if owed.to_string() == replay => return None,
        (Outcome::Outside(_), Some(owed)) => vec![format!("owed, though outside the domain: {owed}")],
        (_, Some(owed)) => vec![format!("owed: {owed}")],
        (Outcome::Panicked(place), None) => vec![format!("{place} is not in the table of places")],
        (_, None) => return None,
    };
    Some(Difference {
        number,
        case: format::case_line(case),
        rust: outcome.line(),
        replay,
        fields,
    })
}

pub fn differing_fields(names: &[String], rust: &str, replay: &str) -> Vec<String> {
    let (rust, replay): (Vec<_>, Vec<_>) = (rust.split(' ').collect(), replay.split(' ').collect());
    if rust.len() != replay.len() {
        return vec![format!("{} fields against {}", rust.len(), replay.len())];
    }
    let labels = std::iter::once("answer").chain(names.iter().map(String::as_str));
    labels
        .zip(rust.iter().zip(&replay))
        .filter(|(_, (rust, replay))| rust != replay)
        .map(|(label, (rust, replay))| format!("{label}: {rust} in the Rust, {replay} in the replay"))
        .collect()
}
