//! The work: call, add and return in turn, thirty lines; of ten returns eight are ok, one is a revert and one a panic.
use crate::forms::Line;
use crate::machine::*;

pub const LIMIT: u32 = 16;
pub const ERGS: u32 = 4_000_000_000;
/// The words of a record, one for each of its fields, and of a line: three records and the want.
pub const RECORD: usize = 19;
const LINE: usize = 3 * RECORD + 1;

/// A record as the Rattle side reads it.
type Fields = [u64; RECORD];

const CALL: u64 = 3;
const ADD: u64 = 1;
const RETURN: u64 = 4;

/// The return of the `turn`th three lines: 0 ok, 1 revert, 2 panic.
fn return_kind(turn: u64) -> u64 {
    match turn {
        4 => 1,
        8 => 2,
        _ => 0,
    }
}

/// op, price and want of each line.
fn listing_lines() -> Vec<u32> {
    let mut lines = Vec::new();
    for turn in 0..10 {
        let want = 900 + 13 * turn;
        lines.extend([1, 25, want]);
        lines.extend([0, 6, want + 1]);
        lines.extend([2 + return_kind(turn as u64) as u32, 5, want + 2]);
    }
    lines
}

/// A record that is 0 but for its operation, condition always, immediates and price.
fn record(operation: u64, imm_0: u64, imm_1: u64, price: u64) -> Fields {
    let mut fields = [0; RECORD];
    fields[0] = operation;
    fields[8] = imm_0;
    fields[9] = imm_1;
    fields[10] = price;
    fields
}

/// A call to a pc of its own, with a handler; the request is in register 1.
fn call(turn: u64) -> Fields {
    let mut fields = record(CALL, 100 + 8 * turn, 300 + 4 * turn, 25);
    fields[5] = 1;
    fields
}

/// Adds to register 2 and sets the flags; the source is a register, an immediate or, if asked for, in memory.
fn add(turn: u64, in_memory: bool) -> Fields {
    let mut fields = record(ADD, 7 + turn, 0, 6);
    fields[3] = match (in_memory, turn % 3) {
        (true, 0) => 3 + turn / 3 % 3,
        (_, 1) => 1,
        _ => 0,
    };
    fields[5] = 1 + turn % 2;
    fields[6] = 2;
    fields[7] = 2;
    fields[15] = 1;
    fields
}

fn ret(turn: u64) -> Fields {
    let mut fields = record(RETURN, 0, 0, 5);
    fields[1] = return_kind(turn);
    fields
}

fn line(plain: Fields, want: u64) -> [u64; LINE] {
    let mut panic = record(RETURN, 0, 0, 0);
    panic[1] = 2;
    let nop = record(0, 0, 0, 0);
    let mut words = [want; LINE];
    for (part, fields) in words.chunks_exact_mut(RECORD).zip([plain, panic, nop]) {
        part.copy_from_slice(&fields);
    }
    words
}

/// The lines of the forms opaque and staged; adds have sources in memory if asked for.
fn record_lines(in_memory: bool) -> Vec<u64> {
    let mut lines = Vec::new();
    for turn in 0..10 {
        let want = 900 + 13 * turn;
        lines.extend(line(call(turn), want));
        lines.extend(line(add(turn, in_memory), want + 1));
        lines.extend(line(ret(turn), want + 2));
    }
    lines
}

/// A word of the form staged's memory, or given to the form opaque: of full size, so that sums overflow at times.
fn word(n: u64) -> U256 {
    U256([1, 2, 3, 4].map(|k| (n * 8 + k).wrapping_mul(0x9e37_79b9_7f4a_7c15)))
}

fn opcode(number: u64) -> Opcode {
    match number {
        0 => Opcode::Nop,
        1 => Opcode::Add,
        2 => Opcode::Sub,
        3 => Opcode::NearCall,
        4 => Opcode::Ret,
        _ => panic!("operation {number}"),
    }
}

fn ret_opcode(number: u64) -> RetOpcode {
    match number {
        0 => RetOpcode::Ok,
        1 => RetOpcode::Revert,
        2 => RetOpcode::Panic,
        _ => panic!("return kind {number}"),
    }
}

fn condition(number: u64) -> Condition {
    match number {
        0 => Condition::Always,
        1 => Condition::Gt,
        2 => Condition::Lt,
        3 => Condition::Eq,
        4 => Condition::Ge,
        5 => Condition::Le,
        6 => Condition::Ne,
        7 => Condition::GtOrLt,
        _ => panic!("condition {number}"),
    }
}

fn operand(number: u64) -> Operand {
    match number {
        0 => Operand::UseRegOnly,
        1 => Operand::UseImm16Only,
        2 => Operand::UseStackWithPushPop,
        3 => Operand::UseStackWithOffset,
        4 => Operand::UseCodePage,
        5 => Operand::UseAbsoluteOnStack,
        _ => panic!("operand kind {number}"),
    }
}

/// A record's numbers as the Rust side holds them.
pub fn decoded(f: &[u64]) -> DecodedOpcode {
    DecodedOpcode {
        opcode: opcode(f[0]),
        ret: ret_opcode(f[1]),
        condition: condition(f[2]),
        src0_operand_type: operand(f[3]),
        dst0_operand_type: operand(f[4]),
        src0_reg_idx: f[5] as u8,
        src1_reg_idx: f[6] as u8,
        dst0_reg_idx: f[7] as u8,
        imm_0: f[8] as u16,
        imm_1: f[9] as u16,
        ergs_cost: f[10] as u32,
        is_explicit_panic: f[11] != 0,
        requires_kernel_mode: f[12] != 0,
        can_be_used_in_static_context: f[13] != 0,
        swap_operands: f[14] != 0,
        set_flags: f[15] != 0,
        to_label: f[16] != 0,
        src0_can_be_pointer: f[17] != 0,
        src1_can_be_pointer: f[18] != 0,
    }
}

fn lines_of(words: &[u64]) -> Vec<Line> {
    let line = |w: &[u64]| Line {
        plain: decoded(&w[..RECORD]),
        panic: decoded(&w[RECORD..2 * RECORD]),
        nop: decoded(&w[2 * RECORD..3 * RECORD]),
        want: w[3 * RECORD],
    };
    words.chunks_exact(LINE).map(line).collect()
}

/// The records of a form as numbers for the Rattle side, and as the Rust side holds them.
#[derive(Debug)]
pub struct Lines {
    pub numbers: Vec<u64>,
    pub held: Vec<Line>,
}

impl Lines {
    fn new(in_memory: bool) -> Self {
        let numbers = record_lines(in_memory);
        let held = lines_of(&numbers);
        Lines { numbers, held }
    }
}

/// What every run is given.
#[derive(Debug)]
pub struct Work {
    pub listing: Vec<u32>,
    pub opaque: Lines,
    pub code: U256,
    pub source: U256,
    pub staged: Lines,
    pub memory: Vec<U256>,
}

impl Work {
    pub fn new() -> Self {
        Work {
            listing: listing_lines(),
            opaque: Lines::new(false),
            code: word(1),
            source: word(2),
            staged: Lines::new(true),
            memory: (0..64).map(word).collect(),
        }
    }
}
