//! Fixed lists of short cases, chosen by what they show.

mod edges;
mod labels;
pub mod reasons;
mod run;
#[cfg(test)]
mod tests;
pub mod unread;

use crate::case::Case;
use crate::cases;
use crate::oracle::{Oracle, Outcome};
use run::Run;
use std::collections::{BTreeSet, HashMap};

/// So many cases are looked at for what they show. Then the list is filled up with those that follow.
const LOOKED_AT: u64 = 200_000;

/// A label, which says one thing that a case shows, is wanted so many times.
const WANTED: i32 = 3;

/// How many labels that are still wanted a case has to have, in turn: so few cases do for many labels.
const LEAST_WANTED: [usize; 8] = [20, 15, 10, 6, 4, 3, 2, 1];

/// At least `count` cases in the domain.
pub fn answered(seed: u64, count: u64) -> Vec<Case> {
    let oracle = Oracle::new();
    let labels = |case: &Case| {
        let answer = oracle.run(case);
        let is_outside = matches!(answer.outcome, Outcome::Outside(_));
        (!is_outside).then(|| labels::of(&Run::new(case, &answer)))
    };
    choose(count, |number| cases::short(seed, number), labels)
}

/// At least `count` cases outside the domain on which document 01 says what is owed, each for one reason alone. Refusal 4 is among them:
/// the Rust panics there, but only where it can state the records.
pub fn outside(seed: u64, count: u64) -> Vec<Case> {
    let oracle = Oracle::new();
    let labels = |case: &Case| {
        let answer = oracle.run(case);
        let refusal = answer.outcome.refusal()?;
        let is_wanted = matches!(answer.outcome, Outcome::Outside(_)) || refusal.number == 4;
        let reasons = reasons::of(&Run::new(case, &answer), refusal.number);
        (is_wanted && reasons.len() == 1).then_some(reasons)
    };
    choose(count, |number| cases::short_spoiled(seed, number), labels)
}

/// Cases that have labels, in the order of their numbers.
fn choose(count: u64, make: impl Fn(u64) -> Case, labels_of: impl Fn(&Case) -> Option<Vec<String>>) -> Vec<Case> {
    // a label is known by its place in `wanted`
    let mut places = HashMap::new();
    let mut labelled = Vec::new();
    for number in 0..LOOKED_AT {
        let Some(labels) = labels_of(&make(number)) else { continue };
        let place_of = |label| {
            let next = places.len();
            *places.entry(label).or_insert(next)
        };
        labelled.push((number, labels.into_iter().map(place_of).collect::<Vec<_>>()));
    }
    let mut wanted = vec![WANTED; places.len()];
    let mut numbers = BTreeSet::new();
    for least in LEAST_WANTED {
        for (number, labels) in &labelled {
            let of_case = labels.iter().filter(|&&label| wanted[label] > 0);
            if of_case.count() >= least && numbers.insert(*number) {
                labels.iter().for_each(|&label| wanted[label] -= 1);
            }
        }
    }
    let following = (LOOKED_AT..).filter(|&number| labels_of(&make(number)).is_some());
    let missing = count.saturating_sub(numbers.len() as u64);
    numbers.extend(following.take(missing as usize));
    numbers.into_iter().map(make).collect()
}
