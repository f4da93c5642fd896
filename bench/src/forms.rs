//! The three forms of a run on the Rust side, for both programs: cycles over lines in turn, from a listing's start.
use crate::machine::*;
use std::hint::black_box;

/// What both sides fill in: refusal, cycles completed, ergs, depth, pc, flags, timestamp, sum of charges.
pub type End = [u64; 8];

/// A line of the forms opaque and staged: the three records, and what register 1 holds.
#[derive(Clone, Copy, Debug)]
pub struct Line {
    pub plain: DecodedOpcode,
    pub panic: DecodedOpcode,
    pub nop: DecodedOpcode,
    pub want: u64,
}

/// How far a run goes.
#[derive(Clone, Copy, Debug)]
pub struct Run {
    pub limit: u32,
    pub ergs: u32,
    pub cycles: u64,
}

/// The same words wherever they are read.
struct Given<'a> {
    code: &'a U256,
    source: &'a U256,
}

impl Memory for Given<'_> {
    #[inline(always)]
    fn read_code(&mut self, _: u32, _: MemoryLocation) -> U256 {
        *self.code
    }

    #[inline(always)]
    fn read(&mut self, _: u32, _: MemoryLocation) -> PrimitiveValue {
        PrimitiveValue::from_value(*self.source)
    }

    #[inline(always)]
    fn write(&mut self, _: u32, _: MemoryLocation, _: PrimitiveValue) {}
}

/// Words by index, for code and stack alike.
struct Indexed<'a>(&'a [U256]);

impl Indexed<'_> {
    #[inline(always)]
    fn at(&self, location: MemoryLocation) -> U256 {
        self.0[location.index as usize % self.0.len()]
    }
}

impl Memory for Indexed<'_> {
    #[inline(always)]
    fn read_code(&mut self, _: u32, location: MemoryLocation) -> U256 {
        self.at(location)
    }

    #[inline(always)]
    fn read(&mut self, _: u32, location: MemoryLocation) -> PrimitiveValue {
        PrimitiveValue::from_value(self.at(location))
    }

    #[inline(always)]
    fn write(&mut self, _: u32, _: MemoryLocation, _: PrimitiveValue) {}
}

/// The instruction of a listing's line.
#[inline(always)]
fn record_of(op: u32, price: u32) -> DecodedOpcode {
    let (opcode, ret, src0_reg_idx) = match op {
        0 => (Opcode::Add, RetOpcode::Ok, 0),
        1 => (Opcode::NearCall, RetOpcode::Ok, 1),
        2 => (Opcode::Ret, RetOpcode::Ok, 0),
        3 => (Opcode::Ret, RetOpcode::Revert, 0),
        _ => (Opcode::Ret, RetOpcode::Panic, 0),
    };
    DecodedOpcode {
        opcode,
        ret,
        src0_reg_idx,
        ergs_cost: price,
        ..DecodedOpcode::NOP
    }
}

/// Where a listing starts: depth 1, in a far frame that holds the ergs; all else is 0.
#[inline(always)]
fn start<'a, P: Program>(run: Run, apart: &'a mut P::Apart, frames: &'a mut [CallStackEntry]) -> P::Machine<'a> {
    let state = State {
        depth: 1,
        max_depth: run.limit as usize,
        ..State::default()
    };
    let current = CallStackEntry {
        ergs_remaining: run.ergs,
        ..CallStackEntry::default()
    };
    frames[0] = CallStackEntry::default();
    P::new(state, current, apart, frames)
}

/// The end. If `WHOLE`, what it does not show is handed out, too: the compiler then has to keep it.
#[inline(always)]
fn end_of<P: Program, const WHOLE: bool>(vm: &mut P::Machine<'_>, cycles: u64, charged: u64) -> End {
    let state = P::state(vm);
    if WHOLE {
        black_box(state);
        black_box(REGISTERS.map(|number| *P::register_mut(vm, number)));
    }
    let frame = P::current(vm);
    let [lt, eq, gt] = state.flags.map(u64::from);
    [
        0,
        cycles,
        frame.ergs_remaining as u64,
        state.depth as u64,
        frame.pc as u64,
        lt | eq << 1 | gt << 2,
        state.timestamp as u64,
        charged,
    ]
}

/// Three words a line: op, price, want. Code and source words are 0.
#[inline(never)]
pub fn listing<P: Program, const BY_VALUE: bool, const WHOLE: bool>(lines: &[u32], run: Run, frames: &mut [CallStackEntry]) -> End {
    let zero = U256::zero();
    let mut memory = Given {
        code: &zero,
        source: &zero,
    };
    let mut apart = P::Apart::default();
    let mut vm = start::<P>(run, &mut apart, frames);
    let mut charged = 0u64;
    let mut left = run.cycles;
    while left > 0 {
        let count = left.min(lines.len() as u64 / 3);
        for line in lines[..3 * count as usize].chunks_exact(3) {
            P::register_mut(&mut vm, 1).value = U256::from_u64(line[2] as u64);
            let records = Masked {
                plain: &record_of(line[0], line[1]),
                panic: &DecodedOpcode::PANIC,
                nop: &DecodedOpcode::NOP,
            };
            charged = charged.wrapping_add(P::cycle::<_, BY_VALUE>(&mut vm, &mut memory, records) as u64);
        }
        left -= count;
    }
    end_of::<P, WHOLE>(&mut vm, run.cycles, charged)
}

#[inline(always)]
fn over_lines<P: Program, M: Memory, const BY_VALUE: bool, const WHOLE: bool>(
    lines: &[Line],
    mut memory: M,
    run: Run,
    frames: &mut [CallStackEntry],
) -> End {
    let mut apart = P::Apart::default();
    let mut vm = start::<P>(run, &mut apart, frames);
    let mut charged = 0u64;
    let mut left = run.cycles;
    while left > 0 {
        let count = left.min(lines.len() as u64);
        for line in &lines[..count as usize] {
            P::register_mut(&mut vm, 1).value = U256::from_u64(line.want);
            let records = Masked {
                plain: &line.plain,
                panic: &line.panic,
                nop: &line.nop,
            };
            charged = charged.wrapping_add(P::cycle::<_, BY_VALUE>(&mut vm, &mut memory, records) as u64);
        }
        left -= count;
    }
    end_of::<P, WHOLE>(&mut vm, run.cycles, charged)
}

/// The code word and the source word are the same at every cycle.
#[inline(never)]
pub fn opaque<P: Program, const BY_VALUE: bool, const WHOLE: bool>(
    lines: &[Line],
    code: &U256,
    source: &U256,
    run: Run,
    frames: &mut [CallStackEntry],
) -> End {
    over_lines::<P, _, BY_VALUE, WHOLE>(lines, Given { code, source }, run, frames)
}

/// Code and source words are read from a memory.
#[inline(never)]
pub fn staged<P: Program, const BY_VALUE: bool, const WHOLE: bool>(
    lines: &[Line],
    words: &[U256],
    run: Run,
    frames: &mut [CallStackEntry],
) -> End {
    assert!(!words.is_empty());
    over_lines::<P, _, BY_VALUE, WHOLE>(lines, Indexed(words), run, frames)
}
