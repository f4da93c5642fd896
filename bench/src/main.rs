//! Runs the same cycles in Rattle, through its static libraries, and in two Rust programs: compares how they end, then times all.
#[cfg(test)]
mod answers;
mod check;
mod forms;
mod machine;
mod plain;
mod rattle;
mod sides;
mod table;
mod tuned;
mod work;

use forms::Run;
use sides::{Form, Stores, Variant, FORMS, VARIANTS};
use std::env;
use std::process::ExitCode;
use work::Work;

const USAGE: &str = "bench                            compare and time; ROUNDS rounds (25), counts from the file BENCH_COUNTS
bench names                      each form and variant
bench count FORM VARIANT CYCLES  one run, nothing printed";

fn find(form: &str, variant: &str) -> Option<(Form, Variant)> {
    let form = FORMS.into_iter().find(|f| f.name() == form)?;
    let variant = VARIANTS.into_iter().find(|v| v.name() == variant)?;
    Some((form, variant))
}

fn names() -> ExitCode {
    for form in FORMS {
        for variant in VARIANTS {
            println!("{} {}", form.name(), variant.name());
        }
    }
    ExitCode::SUCCESS
}

fn usage() -> ExitCode {
    eprintln!("{USAGE}");
    ExitCode::from(2)
}

fn count(form: &str, variant: &str, cycles: &str) -> ExitCode {
    let (Some((form, variant)), Ok(cycles)) = (find(form, variant), cycles.parse()) else {
        return usage();
    };
    let run = Run {
        limit: work::LIMIT,
        ergs: work::ERGS,
        cycles,
    };
    std::hint::black_box(sides::run(form, variant, &Work::new(), run, &mut Stores::new()));
    ExitCode::SUCCESS
}

fn compare_and_time() -> ExitCode {
    let rounds = env::var("ROUNDS").ok().and_then(|n| n.parse().ok()).unwrap_or(25);
    let text = env::var("BENCH_COUNTS").ok().and_then(|path| std::fs::read_to_string(path).ok());
    let counts = table::Counts::read(&text.unwrap_or_default());
    let (work, mut stores) = (Work::new(), Stores::new());
    let differences = check::differences(&work, &mut stores);
    if differences > 0 {
        println!("{differences} ends differ");
        return ExitCode::FAILURE;
    }
    println!("all ends alike");
    table::print(rounds, &counts, &work, &mut stores);
    ExitCode::SUCCESS
}

fn main() -> ExitCode {
    let arguments: Vec<String> = env::args().skip(1).collect();
    let words: Vec<&str> = arguments.iter().map(String::as_str).collect();
    match words.as_slice() {
        [] => compare_and_time(),
        ["names"] => names(),
        ["count", form, variant, cycles] => count(form, variant, cycles),
        _ => usage(),
    }
}
