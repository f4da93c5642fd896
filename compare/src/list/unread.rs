//! Lines that cannot be read, or only just.

use crate::case::{Case, Part, MOST_ROWS};
use crate::cases;
use crate::format;
use crate::oracle::{Oracle, Outcome};

/// The least number that is too large for a flag, a limit, and 8, 16, 32 and 64 bits.
const TOO_LARGE: [u128; 6] = [2, 17, 1 << 8, 1 << 16, 1 << 32, 1 << 64];

/// Lines that are no list of numbers, leading zeros, and as many rows as are served and one more. Then, for each number of a case that finishes
/// at depth 1, the line with the least number there that cannot be read.
pub fn lines(seed: u64) -> Vec<String> {
    let oracle = Oracle::new();
    let is_plain = |case: &Case| case.part == Part::Cycle && case.state.depth() == 1;
    let base = (0..)
        .map(|number| cases::short(seed, number))
        .find(|case| is_plain(case) && matches!(oracle.run(case).outcome, Outcome::Finished(_)))
        .expect("the numbers do not end");
    let line = format::case_line(&base);
    let mut lines = malformed(&line);
    lines.extend([MOST_ROWS, MOST_ROWS + 1].map(|depth| format::case_line(&with_depth(&base, depth))));
    for place in 0..line.split(' ').count() {
        let is_unread = |number: &u128| format::read_case(with_number(&line, place, *number).as_bytes()).is_none();
        let least = TOO_LARGE.into_iter().find(is_unread).expect("no field has more than 64 bits");
        lines.push(with_number(&line, place, least));
    }
    lines
}

fn with_depth(case: &Case, depth: u32) -> Case {
    let mut case = case.clone();
    case.state.saved = vec![case.state.current; depth as usize];
    case
}

fn with_number(line: &str, place: usize, number: u128) -> String {
    let mut numbers: Vec<_> = line.split(' ').map(String::from).collect();
    numbers[place] = number.to_string();
    numbers.join(" ")
}

/// A case with something wrong, and at the end one with nothing wrong but leading zeros.
fn malformed(line: &str) -> Vec<String> {
    let before = [
        "+",
        "-",
        " ",
        "x",
        ",",
        "cycle ",
        "Execute ",
        "executes ",
        " execute ",
        "execute  ",
        "execute execute ",
    ];
    let after = [" ", " 0", "x", ".", "\r", "\t"];
    let between = ["  ", "\t", ",", " x", " -", ""];
    let too_long = "0".repeat(70_000);
    let mut lines = vec![String::new(), "0".into(), too_long, "execute".into(), "execute ".into()];
    lines.extend(before.map(|text| format!("{text}{line}")));
    lines.extend(after.map(|text| format!("{line}{text}")));
    lines.extend(between.map(|text| line.replacen(' ', text, 1)));
    lines.extend(line.rsplit_once(' ').map(|(start, _)| start.to_string()));
    lines.push(format!("{}{line}", "0".repeat(40)));
    lines
}
