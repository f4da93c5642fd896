//! Times of every form and variant, and the table.
use crate::forms::Run;
use crate::sides::{self, Form, Stores, Variant, FORMS, VARIANTS};
use crate::work::{Work, ERGS, LIMIT};
use std::collections::HashMap;
use std::time::Instant;

const CYCLES: u64 = 1_000_000;
/// The variants that the last lines hold Rattle to.
const PLAIN: [Variant; 2] = [Variant::PlainReference, Variant::PlainValue];
const TUNED: [Variant; 2] = [Variant::TunedReference, Variant::TunedValue];

/// Instructions per cycle by form and variant, as text: lines of `FORM VARIANT COUNT`.
pub struct Counts(HashMap<(String, String), String>);

impl Counts {
    pub fn read(text: &str) -> Self {
        let entry = |line: &str| {
            let mut words = line.split_whitespace().map(str::to_string);
            Some(((words.next()?, words.next()?), words.next()?))
        };
        Counts(text.lines().filter_map(entry).collect())
    }

    fn of(&self, form: Form, variant: Variant) -> &str {
        let key = (form.name().to_string(), variant.name().to_string());
        self.0.get(&key).map_or("-", String::as_str)
    }
}

/// The least nanoseconds per cycle of each variant, in rounds that run all variants in turn.
fn minima(form: Form, rounds: usize, work: &Work, stores: &mut Stores) -> [f64; VARIANTS.len()] {
    let run = Run {
        limit: LIMIT,
        ergs: ERGS,
        cycles: CYCLES,
    };
    let mut least = [f64::INFINITY; VARIANTS.len()];
    for _ in 0..rounds {
        for (place, variant) in least.iter_mut().zip(VARIANTS) {
            stores.clear();
            let start = Instant::now();
            std::hint::black_box(sides::run(form, variant, work, run, stores));
            *place = place.min(start.elapsed().as_secs_f64() * 1e9 / CYCLES as f64);
        }
    }
    least
}

/// Rattle's time by that of the fastest of these.
fn ratio(least: &[f64; VARIANTS.len()], variants: &[Variant]) -> f64 {
    let times = VARIANTS.iter().zip(least).filter(|(variant, _)| variants.contains(variant));
    least[0] / times.map(|(_, time)| *time).fold(f64::INFINITY, f64::min)
}

fn print_form(form: Form, least: &[f64; VARIANTS.len()], counts: &Counts) {
    for (time, variant) in least.iter().zip(VARIANTS) {
        println!(
            "{:8} {:21} {:6.2} {:>13} {:6.2}",
            form.name(),
            variant.name(),
            time,
            counts.of(form, variant),
            ratio(least, &[variant])
        );
    }
}

/// Prints the table, then Rattle's ratios: to the tuned variants that hand out the end alone, then to the plain ones, the listing last.
pub fn print(rounds: usize, counts: &Counts, work: &Work, stores: &mut Stores) {
    println!("{CYCLES} cycles a round, least of {rounds} rounds; ratio: Rattle's time by the variant's");
    println!("{:8} {:21} {:>6} {:>13} {:>6}", "form", "variant", "ns", "instructions", "ratio");
    let times = FORMS.map(|form| {
        let least = minima(form, rounds, work, stores);
        print_form(form, &least, counts);
        least
    });
    for (form, least) in FORMS.iter().zip(&times) {
        println!("ratio tuned {} {:.2}", form.name(), ratio(least, &TUNED));
    }
    for (form, least) in FORMS.iter().zip(&times).skip(1) {
        println!("ratio {} {:.2}", form.name(), ratio(least, &PLAIN));
    }
    println!("ratio {:.2}", ratio(&times[0], &PLAIN));
}
