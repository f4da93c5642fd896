//! Where the Rust panics, and which refusal of document 01 each place is.

use std::fmt::{Display, Formatter};
use std::fs;
use std::path::Path;

/// A file of the sources, named from their folder, and a line.
#[derive(Clone, Debug, PartialEq, Eq, PartialOrd, Ord)]
pub struct Place {
    pub file: String,
    pub line: u32,
}

impl Display for Place {
    fn fmt(&self, f: &mut Formatter<'_>) -> std::fmt::Result {
        write!(f, "{}:{}", self.file, self.line)
    }
}

/// A refusal's number, and the stage that makes it: 0 fetch, 1 decode, 2 operands, 3 execute.
#[derive(Clone, Copy, Debug, PartialEq, Eq, PartialOrd, Ord)]
pub struct Refusal {
    pub number: u32,
    pub stage: u32,
}

impl Display for Refusal {
    fn fmt(&self, f: &mut Formatter<'_>) -> std::fmt::Result {
        write!(f, "refused {} {}", self.number, self.stage)
    }
}

pub const FETCH: u32 = 0;
pub const DECODE: u32 = 1;
pub const OPERANDS: u32 = 2;
pub const EXECUTE: u32 = 3;

/// File, line, what fails there, refusal number, stage. `pop_entry` and `push_entry` panic at their caller's line. No whole cycle comes to
/// the two marked "alone": an ended execution takes a nop, and at the limit a near call is masked into panic.
const TABLE: [(&str, u32, &str, u32, u32); 13] = [
    ("vm_state/cycle.rs", 136, "read_and_decode: ended and pending", 4, FETCH),
    ("vm_state/execution_stack.rs", 77, "stack_page_from_base: the sum", 14, OPERANDS),
    ("vm_state/helpers.rs", 311, "start_frame: above the limit (alone)", 9, EXECUTE),
    ("vm_state/helpers.rs", 357, "finish_frame: no saved row (alone)", 8, EXECUTE),
    ("vm_state/helpers.rs", 376, "finish_frame: pubdata sum", 10, EXECUTE),
    ("vm_state/helpers.rs", 394, "finish_frame: revert counter's difference", 11, EXECUTE),
    ("vm_state/helpers.rs", 395, "finish_frame: revert counter below 0", 11, EXECUTE),
    ("opcodes/execution/ret.rs", 258, "ret_opcode_apply: ergs sum", 12, EXECUTE),
    ("opcodes/execution/ret.rs", 270, "ret_opcode_apply: heap bound", 13, EXECUTE),
    ("opcodes/execution/ret.rs", 271, "ret_opcode_apply: aux heap bound", 13, EXECUTE),
    ("vm_state/mod.rs", 233, "timestamp_for_dst_write: the sum", 14, OPERANDS),
    ("vm_state/mod.rs", 236, "increment_timestamp_after_cycle: the sum", 14, EXECUTE),
    ("vm_state/cycle.rs", 470, "cycle: cycle counter's sum", 14, EXECUTE),
];

fn entry(place: &Place) -> Option<&'static (&'static str, u32, &'static str, u32, u32)> {
    TABLE.iter().find(|entry| entry.0 == place.file && entry.1 == place.line)
}

/// The refusal that a panic at this place is, or `None` where the table has no such place.
pub fn refusal_at(place: &Place) -> Option<Refusal> {
    entry(place).map(|&(_, _, _, number, stage)| Refusal { number, stage })
}

/// The function of the sources that this place is in.
pub fn function_at(place: &Place) -> Option<String> {
    let text = fs::read_to_string(Path::new(zk_evm::FOLDER).join(&place.file)).ok()?;
    let lines = Vec::from_iter(text.lines().take(place.line as usize));
    let is_comment = |line: &str| line.trim_start().starts_with("//");
    let name = |line: &&str| {
        let (before, rest) = line.split_once("fn ")?;
        let is_word = before.is_empty() || before.ends_with(' ');
        let name: String = rest.chars().take_while(|c| c.is_alphanumeric() || *c == '_').collect();
        (is_word && !is_comment(line)).then_some(name)
    };
    lines.iter().rev().find_map(name)
}

/// Whether a panic at this place is a refusal by operands, though the Rust may come to it in execute: the time of a write.
pub fn is_of_operands(place: &Place) -> bool {
    refusal_at(place).is_some_and(|refusal| refusal.stage == OPERANDS)
}

/// What fails at this place.
pub fn meaning_of(place: &Place) -> &'static str {
    entry(place).map_or("not in the table", |entry| entry.2)
}
