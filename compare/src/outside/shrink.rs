//! Makes a case smaller, as long as it stays in its class.

use crate::case::Case;
use crate::format;
use std::io;

/// The values that are tried in place of a number, if it is above them.
const SMALLER: [u64; 3] = [0, 1, 2];

/// Drops saved rows, then makes each number smaller by itself, until nothing changes.
pub fn smallest(case: &Case, mut is_same: impl FnMut(&Case) -> io::Result<bool>) -> io::Result<Case> {
    let mut case = case.clone();
    loop {
        let before = case.clone();
        drop_rows(&mut case, &mut is_same)?;
        lower_numbers(&mut case, &mut is_same)?;
        if case == before {
            return Ok(case);
        }
    }
}

fn drop_rows(case: &mut Case, is_same: &mut impl FnMut(&Case) -> io::Result<bool>) -> io::Result<()> {
    let mut row = 0;
    while row < case.state.saved.len() {
        let mut smaller = case.clone();
        smaller.state.saved.remove(row);
        if is_same(&smaller)? {
            *case = smaller;
        } else {
            row += 1;
        }
    }
    Ok(())
}

fn lower_numbers(case: &mut Case, is_same: &mut impl FnMut(&Case) -> io::Result<bool>) -> io::Result<()> {
    let count = format::case_line(case).split(' ').count();
    for place in 0..count {
        for value in SMALLER {
            let Some(smaller) = with_number(case, place, value) else { continue };
            if is_same(&smaller)? {
                *case = smaller;
                break;
            }
        }
    }
    Ok(())
}

/// The case with a smaller number at this place of its line, where there is such a one.
fn with_number(case: &Case, place: usize, value: u64) -> Option<Case> {
    let line = format::case_line(case);
    let mut words = Vec::from_iter(line.split(' '));
    let smaller = value.to_string();
    let is_smaller = words[place].parse::<u64>().is_ok_and(|number| value < number);
    words[place] = &smaller;
    format::read_case(words.join(" ").as_bytes()).filter(|_| is_smaller)
}
