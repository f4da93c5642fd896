//! Both Rust programs held to the answers of the reference's own cycle: those lines of `crates/replay` that have this program's
//! settings. `compare/README.md` has the format.
use crate::machine::*;
use crate::plain::Plain;
use crate::sides::ROW;
use crate::tuned::Tuned;
use crate::work::{decoded, RECORD};

/// Depth limit, multiplier and time step of the lines that are taken.
const SETTINGS: [u64; 3] = [4, ERGS_CONVERSION as u64, TIME_DELTA_PER_CYCLE as u64];
/// The numbers before the rows of a result: registers, flags and state. A case has the settings before them.
const BEFORE_ROWS: usize = 75 + 3 + 11;
/// The words of a row that the reference's frame has: all but the last, the cycle of opening.
const KNOWN: usize = ROW - 1;

struct Numbers<'a>(&'a [u64]);

impl Numbers<'_> {
    fn take(&mut self) -> u64 {
        self.list(1)[0]
    }

    fn list(&mut self, count: usize) -> &[u64] {
        let (front, rest) = self.0.split_at(count);
        self.0 = rest;
        front
    }

    fn word(&mut self) -> U256 {
        U256(self.list(4).try_into().unwrap())
    }

    fn value(&mut self) -> PrimitiveValue {
        let value = self.word();
        let is_pointer = self.take() == 1;
        PrimitiveValue { value, is_pointer }
    }
}

fn address(words: &[u64]) -> [u8; 20] {
    let bytes: Vec<u8> = words.iter().flat_map(|w| (*w as u32).to_be_bytes()).collect();
    bytes.try_into().unwrap()
}

fn frame(row: &[u64]) -> CallStackEntry {
    CallStackEntry {
        this_address: address(&row[0..5]),
        msg_sender: address(&row[5..10]),
        code_address: address(&row[10..15]),
        base_memory_page: row[15] as u32,
        code_page: row[16] as u32,
        sp: row[17] as u16,
        pc: row[18] as u16,
        exception_handler_location: row[19] as u16,
        ergs_remaining: row[20] as u32,
        this_shard_id: row[21] as u8,
        caller_shard_id: row[22] as u8,
        code_shard_id: row[23] as u8,
        is_static: row[24] == 1,
        is_local_frame: row[25] == 1,
        context_u128_value: (0..4).map(|k| (row[26 + k] as u128) << (32 * k)).sum(),
        heap_bound: row[30] as u32,
        aux_heap_bound: row[31] as u32,
        total_pubdata_spent: row[32] as u32 as i32,
        stipend: row[33] as u32,
    }
}

fn row(f: &CallStackEntry) -> Vec<u64> {
    let mut words = Vec::new();
    for address in [f.this_address, f.msg_sender, f.code_address] {
        words.extend(address.chunks(4).map(|c| u32::from_be_bytes(c.try_into().unwrap()) as u64));
    }
    words.extend([f.base_memory_page as u64, f.code_page as u64]);
    words.extend([f.sp, f.pc, f.exception_handler_location].map(u64::from));
    words.push(f.ergs_remaining as u64);
    words.extend([f.this_shard_id, f.caller_shard_id, f.code_shard_id].map(u64::from));
    words.extend([f.is_static, f.is_local_frame].map(u64::from));
    words.extend((0..4).map(|k| (f.context_u128_value >> (32 * k)) as u32 as u64));
    words.extend([f.heap_bound, f.aux_heap_bound, f.total_pubdata_spent as u32, f.stipend].map(u64::from));
    words
}

/// Gives the words of a case, and notes what is asked: the code read, the source and the write, as a result has them.
#[derive(Default)]
struct Noted {
    code: U256,
    source: PrimitiveValue,
    code_read: [u64; 4],
    source_read: [u64; 4],
    written: [u64; 10],
}

fn kind(location: MemoryLocation) -> u64 {
    match location.memory_type {
        MemoryType::Stack => 1,
        MemoryType::Code => 2,
    }
}

impl Memory for Noted {
    fn read_code(&mut self, time: u32, at: MemoryLocation) -> U256 {
        self.code_read = [1, at.page as u64, at.index as u64, time as u64];
        self.code
    }

    fn read(&mut self, time: u32, at: MemoryLocation) -> PrimitiveValue {
        self.source_read = [kind(at), at.page as u64, at.index as u64, time as u64];
        self.source
    }

    fn write(&mut self, time: u32, at: MemoryLocation, value: PrimitiveValue) {
        let [w0, w1, w2, w3] = value.value.0;
        let (page, index, time) = (at.page as u64, at.index as u64, time as u64);
        self.written = [1, kind(at), page, index, time, w0, w1, w2, w3, value.is_pointer as u64];
    }
}

/// The state of a case, which stands after the registers, and its frames: the current one, and the saved ones with free places.
fn state_and_frames(case: &mut Numbers) -> (State, CallStackEntry, Vec<CallStackEntry>) {
    let flags = [0; 3].map(|_| case.take() == 1);
    let (timestamp, counter, pending) = (case.take(), case.take(), case.take());
    let previous_code_word = case.word();
    let (page, super_pc, reverts, depth) = (case.take(), case.take(), case.take(), case.take() as usize);
    let state = State {
        previous_code_word,
        previous_code_memory_page: page as u32,
        previous_super_pc: super_pc as u16,
        flags,
        timestamp: timestamp as u32,
        monotonic_cycle_counter: counter as u32,
        pending_exception: pending == 1,
        pubdata_revert_counter: reverts as u32 as i32,
        depth,
        max_depth: SETTINGS[0] as usize,
    };
    let current = frame(case.list(ROW));
    let mut frames: Vec<_> = (0..depth).map(|_| frame(case.list(ROW))).collect();
    frames.resize(state.max_depth + 1, CallStackEntry::default());
    (state, current, frames)
}

/// The numbers of a machine in a result, but for its saved frames.
fn numbers<P: Program>(vm: &mut P::Machine<'_>) -> Vec<u64> {
    let mut list = Vec::new();
    for number in REGISTERS {
        let register = P::register_mut(vm, number);
        list.extend(register.value.0);
        list.push(register.is_pointer as u64);
    }
    let state = P::state(vm);
    list.extend(state.flags.map(u64::from));
    list.extend([state.timestamp, state.monotonic_cycle_counter, state.pending_exception as u32].map(u64::from));
    list.extend(state.previous_code_word.0);
    list.extend([state.previous_code_memory_page as u64, state.previous_super_pc as u64]);
    list.extend([state.pubdata_revert_counter as u32 as u64, state.depth as u64]);
    list.extend(row(P::current(vm)));
    list
}

/// What a program's cycle gives of a result: the machine, code read, charge, source and write.
fn cycled<P: Program, const BY_VALUE: bool>(case: &[u64]) -> Vec<u64> {
    let mut case = Numbers(&case[3..]);
    let registers = REGISTERS.map(|_| case.value());
    let (state, current, mut frames) = state_and_frames(&mut case);
    let mut apart = P::Apart::default();
    let mut vm = P::new(state, current, &mut apart, &mut frames);
    for (number, value) in REGISTERS.into_iter().zip(registers) {
        *P::register_mut(&mut vm, number) = value;
    }
    let [plain, panic, nop] = [0; 3].map(|_| decoded(case.list(RECORD)));
    let mut memory = Noted {
        code: case.word(),
        source: case.value(),
        ..Noted::default()
    };
    let records = Masked {
        plain: &plain,
        panic: &panic,
        nop: &nop,
    };
    let charge = P::cycle::<_, BY_VALUE>(&mut vm, &mut memory, records);
    let depth = P::state(&vm).depth;
    let mut list = numbers::<P>(&mut vm);
    drop(vm);
    list.extend(frames[..depth].iter().flat_map(row));
    list.extend(memory.code_read);
    list.push(charge as u64);
    list.extend(memory.source_read);
    list.extend(memory.written);
    list
}

/// The same of a line of answers; after the machine come code read, fetch, decode, operands, write and event.
fn answered(result: &[u64]) -> Vec<u64> {
    let (machine, rest) = result.split_at(result.len() - 27);
    let (state, rows) = machine.split_at(BEFORE_ROWS);
    let rows: Vec<u64> = rows.chunks(ROW).flat_map(|row| row[..KNOWN].to_vec()).collect();
    [state, &rows, &rest[0..4], &rest[7..8], &rest[8..12], &rest[16..26]].concat()
}

/// Whether the types here can state a case: no operation but these five, every row good.
fn is_stated(case: &[u64]) -> bool {
    let records = case.len() - 9 - 3 * RECORD;
    let rows = &case[SETTINGS.len() + BEFORE_ROWS..records];
    let good = |words: &[u64]| row(&frame(words)) == words[..KNOWN];
    case[records..].chunks(RECORD).take(3).all(|r| r[0] < 5) && rows.chunks(ROW).all(good)
}

fn parsed(line: &str) -> Option<Vec<u64>> {
    line.split(' ').map(|n| n.parse().ok()).collect()
}

/// Holds a program to the lines that can be stated; their number.
fn hold<P: Program, const BY_VALUE: bool>() -> usize {
    let folder = concat!(env!("CARGO_MANIFEST_DIR"), "/../crates/replay/");
    let [cases, results] = ["stdin", "stdout"].map(|name| std::fs::read_to_string(format!("{folder}{name}")).unwrap());
    let mut taken = 0;
    for (case, result) in cases.lines().zip(results.lines()) {
        let (Some(case), Some(result)) = (parsed(case), result.strip_prefix("ok ").and_then(parsed)) else {
            continue;
        };
        if case[..3] == SETTINGS && is_stated(&case) {
            assert_eq!(cycled::<P, BY_VALUE>(&case), answered(&result), "{case:?}");
            taken += 1;
        }
    }
    taken
}

#[test]
fn plain_answers_as_the_reference() {
    assert!(hold::<Plain, false>() >= 300);
    assert!(hold::<Plain, true>() >= 300);
}

#[test]
fn tuned_answers_as_the_reference() {
    assert!(hold::<Tuned, false>() >= 300);
    assert!(hold::<Tuned, true>() >= 300);
}

/// What an add of register 1, a pointer, and register 0 gives outside kernel mode: no line of the answers has that.
fn sum_of_pointer<P: Program>() -> U256 {
    let state = State {
        depth: 1,
        max_depth: 4,
        ..State::default()
    };
    let current = CallStackEntry {
        this_address: [1; 20],
        ..CallStackEntry::default()
    };
    let (mut apart, mut frames) = (P::Apart::default(), [CallStackEntry::default(); 5]);
    let mut vm = P::new(state, current, &mut apart, &mut frames);
    *P::register_mut(&mut vm, 1) = PrimitiveValue {
        value: U256([1, 2, 3, 4]),
        is_pointer: true,
    };
    let add = DecodedOpcode {
        opcode: Opcode::Add,
        src0_reg_idx: 1,
        dst0_reg_idx: 2,
        ..DecodedOpcode::NOP
    };
    let records = Masked {
        plain: &add,
        panic: &DecodedOpcode::PANIC,
        nop: &DecodedOpcode::NOP,
    };
    P::cycle::<_, false>(&mut vm, &mut Noted::default(), records);
    P::register_mut(&mut vm, 2).value
}

#[test]
fn metadata_of_pointers_is_erased() {
    assert_eq!(sum_of_pointer::<Plain>(), U256([0, 0, 3, 4]));
    assert_eq!(sum_of_pointer::<Tuned>(), U256([0, 0, 3, 4]));
}
