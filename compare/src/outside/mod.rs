//! Cases outside the domain of equality: what the Rust does on them, as far as it can state them, and what the port does.

mod class;
mod reasons;
mod shrink;
#[cfg(test)]
mod tests;

use crate::case::Case;
use crate::cases;
use crate::format;
use crate::oracle::{Oracle, Outcome, BUILT_WITH};
use crate::replay::Replay;
use class::{Class, Ends, Looker, Port, Rust};
use std::collections::BTreeMap;
use std::io::{self, Write};

/// Cases between two progress lines.
const PROGRESS: u64 = 50_000;

/// How often a class was met, and the shortest case of it.
struct Met {
    count: u64,
    smallest: Case,
    length: usize,
}

/// So many cases outside the domain. `Ok(true)` where the port does all that it owes, and is equal wherever it goes on and the Rust has the
/// same settings.
pub fn run(replay: &str, seed: u64, count: u64) -> io::Result<bool> {
    let oracle = Oracle::new();
    let mut looker = Looker::new(Replay::start(replay)?);
    let mut classes: BTreeMap<Class, Met> = BTreeMap::new();
    let is_outside = |case: &Case| matches!(oracle.run(case).outcome, Outcome::Outside(_));
    let cases = (0..).map(|number| cases::leaving(seed, number)).filter(is_outside);
    for (number, case) in (1..=count).zip(cases) {
        let class = looker.class(&case)?;
        let length = format::case_line(&case).len();
        let met = classes.entry(class).or_insert_with(|| Met {
            count: 0,
            smallest: case.clone(),
            length,
        });
        met.count += 1;
        if length < met.length {
            (met.smallest, met.length) = (case, length);
        }
        if number % PROGRESS == 0 {
            eprintln!("{number} cases, {} classes", classes.len());
        }
    }
    for (class, met) in &mut classes {
        met.smallest = shrink::smallest(&met.smallest, |case| Ok(looker.class(case)? == *class))?;
    }
    print(&mut io::stdout().lock(), &mut looker, &classes)?;
    looker.stop()?;
    print_ends(&classes);
    println!("{count} cases of seed {seed}, {} classes", classes.len());
    Ok(!classes.keys().any(Class::is_alarming))
}

fn print_ends(classes: &BTreeMap<Class, Met>) {
    let mut ends: BTreeMap<Ends, u64> = BTreeMap::new();
    for (class, met) in classes {
        *ends.entry(class.ends()).or_default() += met.count;
    }
    println!();
    ends.iter().for_each(|(end, count)| println!("{end}: {count}"));
}

fn print(out: &mut impl Write, looker: &mut Looker, classes: &BTreeMap<Class, Met>) -> io::Result<()> {
    let mut by_answer: BTreeMap<(&Port, &Rust), u64> = BTreeMap::new();
    for (class, met) in classes {
        *by_answer.entry((&class.port, &class.rust)).or_default() += met.count;
    }
    writeln!(out, "| the port | the Rust | cases |\n|---|---|---|")?;
    for ((port, rust), count) in &by_answer {
        writeln!(out, "| {port} | {rust} | {count} |")?;
    }
    writeln!(
        out,
        "\n| | part | reason | the port | the Rust | a stand-in has | cases | smallest |\n|---|---|---|---|---|---|---|---|"
    )?;
    for (number, (class, met)) in classes.iter().enumerate() {
        let words = format::case_in_words(&met.smallest, BUILT_WITH);
        writeln!(out, "| {number} | {class} | {} | {words} |", met.count)?;
    }
    writeln!(out, "\nthe smallest cases as lines:")?;
    for (number, (class, met)) in classes.iter().enumerate() {
        writeln!(out, "{number}: {}", format::case_line(&met.smallest))?;
        if class.port == Port::Different {
            let fields = looker.differing_fields(&met.smallest)?;
            fields.iter().try_for_each(|field| writeln!(out, "  {field}"))?;
        }
    }
    Ok(())
}
