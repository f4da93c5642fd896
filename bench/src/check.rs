//! All variants must end alike after every count of cycles that is tried.
use crate::forms::{End, Run};
use crate::sides::{self, Form, Stores, Variant, FORMS, VARIANTS};
use crate::work::{Work, ERGS, LIMIT};

/// An end, and the saved caller's ergs and pc at depth 2.
type Shown = (End, Option<(u32, u32)>);

fn shown(form: Form, variant: Variant, cycles: u64, work: &Work, stores: &mut Stores) -> Shown {
    let run = Run {
        limit: LIMIT,
        ergs: ERGS,
        cycles,
    };
    stores.clear();
    let end = sides::run(form, variant, work, run, stores);
    let caller = (end[3] == 2).then(|| stores.caller(variant));
    (end, caller)
}

/// Prints each difference; their number.
pub fn differences(work: &Work, stores: &mut Stores) -> usize {
    let mut count = 0;
    for form in FORMS {
        for cycles in (0..=1_000).chain(999_990..=1_000_000) {
            let rattle = shown(form, Variant::Rattle, cycles, work, stores);
            for variant in &VARIANTS[1..] {
                let rust = shown(form, *variant, cycles, work, stores);
                if rust != rattle {
                    println!("{} {cycles}: rattle {rattle:?}, {} {rust:?}", form.name(), variant.name());
                    count += 1;
                }
            }
        }
    }
    count
}
