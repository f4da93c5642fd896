//! What the cases outside the domain reach. For the default settings.

use super::reasons::{self, Reason};
use crate::case::Part;
use crate::cases;
use crate::oracle::{Oracle, Outcome};
use std::collections::BTreeSet;

/// Every reason by itself, with the Rust finishing where it can.
#[test]
fn cases_leave_in_every_way() {
    let oracle = Oracle::new();
    let mut all = BTreeSet::new();
    let mut finished = BTreeSet::new();
    for case in (0..30_000).map(|number| cases::leaving(1, number)) {
        let ran = oracle.run_anyway(&case);
        let [reason] = &reasons::of(&case, ran.as_ref().ok())[..] else {
            continue;
        };
        let name = match reason {
            Reason::Record(text, _) => text.split(' ').next().unwrap_or_default().to_string(),
            other => other.to_string(),
        };
        if matches!(ran, Ok(ran) if matches!(ran.outcome, Outcome::Finished(_))) {
            finished.insert((case.part, name.clone()));
        }
        all.insert((case.part, name));
    }
    let names = |part, set: &BTreeSet<(Part, String)>| set.iter().filter(|entry| entry.0 == part).count();
    // limit 0, depth, three settings, two rows, records by their first word (plain, panic, nop, ended, pending), 5 to 7
    assert_eq!(names(Part::Cycle, &all), 15);
    // of records only plain, and a source
    assert_eq!(names(Part::Execute, &all), 12);
    // no bad rows, no operation 5
    assert_eq!(names(Part::Cycle, &finished), 12);
    assert_eq!(names(Part::Execute, &finished), 9);
}
