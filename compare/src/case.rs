//! A case and a finished cycle, in document 01's terms.

/// A 256-bit word, lowest 64 bits first.
pub type Word = [u64; 4];

pub const REGISTERS: usize = 15;
pub const ROW: usize = 35;

/// The largest limit and depth of the case format.
pub const MOST_ROWS: u32 = 16;

/// A frame as the words of its row.
#[derive(Clone, Copy, Debug, PartialEq, Eq)]
pub struct Row(pub [u32; ROW]);

/// Places of a row that are read one by one. The three addresses come first, five words each; the cycle of opening is the last word.
pub mod place {
    use super::ROW;

    pub const ADDRESSES: usize = 0;
    pub const BASE_PAGE: usize = 15;
    pub const CODE_PAGE: usize = 16;
    pub const SP: usize = 17;
    pub const PC: usize = 18;
    pub const HANDLER: usize = 19;
    pub const ERGS: usize = 20;
    pub const SHARDS: usize = 21;
    pub const STATIC: usize = 24;
    pub const LOCAL: usize = 25;
    pub const CONTEXT: usize = 26;
    pub const HEAP_BOUND: usize = 30;
    pub const AUX_HEAP_BOUND: usize = 31;
    pub const PUBDATA: usize = 32;
    pub const STIPEND: usize = 33;
    pub const OPENING: usize = ROW - 1;
}

impl Row {
    /// Document 01: sp, pc and handler below 65,536, shard ids below 256, static and local 0 or 1.
    pub fn is_good(&self) -> bool {
        self.0[place::SP..=place::HANDLER].iter().all(|&word| word < 1 << 16)
            && self.0[place::SHARDS..place::STATIC].iter().all(|&word| word < 1 << 8)
            && self.0[place::STATIC..=place::LOCAL].iter().all(|&word| word < 2)
    }

    /// The first 18 bytes of this_address are 0.
    pub fn is_kernel(&self) -> bool {
        self.0[..4] == [0; 4] && self.0[4] < 1 << 16
    }
}

#[derive(Clone, Copy, Debug, PartialEq, Eq)]
pub struct Settings {
    pub limit: u32,
    pub multiplier: u32,
    pub time_step: u32,
}

#[derive(Clone, Copy, Debug, Default, PartialEq, Eq)]
pub struct Register {
    pub value: Word,
    pub is_pointer: bool,
}

/// A machine state that is ready for a cycle, with its saved rows, the oldest first.
#[derive(Clone, Debug, PartialEq, Eq)]
pub struct State {
    pub registers: [Register; REGISTERS],
    /// overflow or less than, equal, greater than
    pub flags: [bool; 3],
    pub timestamp: u32,
    pub cycle_counter: u32,
    pub pending_exception: bool,
    pub previous_code_word: Word,
    pub previous_code_page: u32,
    pub previous_super_pc: u16,
    /// the two's complement word
    pub revert_counter: u32,
    pub current: Row,
    pub saved: Vec<Row>,
}

impl State {
    pub fn depth(&self) -> u32 {
        self.saved.len() as u32
    }

    pub fn has_ended(&self) -> bool {
        self.saved.is_empty()
    }

    /// What register `number`, which is at most 15, holds; 0 means the empty value.
    pub fn register(&self, number: u8) -> Register {
        match usize::from(number).checked_sub(1) {
            Some(i) => self.registers[i],
            None => Register::default(),
        }
    }
}

pub mod operation {
    pub const NOP: u8 = 0;
    pub const ADD: u8 = 1;
    pub const SUB: u8 = 2;
    pub const NEAR_CALL: u8 = 3;
    pub const RETURN: u8 = 4;
    pub const OTHER: u8 = 5;
    pub const NAMES: [&str; 6] = ["nop", "add", "sub", "near call", "return", "other"];
}

pub mod return_kind {
    pub const OK: u8 = 0;
    pub const REVERT: u8 = 1;
    pub const PANIC: u8 = 2;
}

/// Kinds of a source or destination.
pub mod kind {
    pub const REGISTER: u8 = 0;
    pub const IMMEDIATE: u8 = 1;
    pub const PUSH_POP: u8 = 2;
    pub const STACK_OFFSET: u8 = 3;
    pub const CODE_PAGE: u8 = 4;
    pub const ABSOLUTE_STACK: u8 = 5;
}

/// An instruction record, whose numbers may be outside their lists.
#[derive(Clone, Copy, Debug, Default, PartialEq, Eq)]
pub struct Record {
    pub operation: u8,
    pub return_kind: u8,
    pub condition: u8,
    pub source_kind: u8,
    pub destination_kind: u8,
    pub src0: u8,
    pub src1: u8,
    pub dst0: u8,
    pub imm_0: u16,
    pub imm_1: u16,
    pub price: u32,
    pub explicit_panic: bool,
    pub kernel_only: bool,
    pub allowed_when_static: bool,
    pub swap: bool,
    pub set_flags: bool,
    pub to_label: bool,
    pub src0_may_be_pointer: bool,
    pub src1_may_be_pointer: bool,
}

impl Record {
    pub fn is_nop(&self) -> bool {
        self.operation == operation::NOP
    }

    pub fn is_panic_return(&self) -> bool {
        self.operation == operation::RETURN && self.return_kind == return_kind::PANIC
    }
}

#[derive(Clone, Copy, Debug, PartialEq, Eq)]
pub struct Records {
    pub plain: Record,
    pub panic: Record,
    pub nop: Record,
}

/// Which of the three records decode keeps.
#[derive(Clone, Copy, Debug, PartialEq, Eq)]
pub enum Choice {
    Plain,
    Panic,
    Nop,
}

impl Records {
    pub fn kept(&self, choice: Choice) -> &Record {
        match choice {
            Choice::Plain => &self.plain,
            Choice::Panic => &self.panic,
            Choice::Nop => &self.nop,
        }
    }
}

/// How much of a cycle a case is about.
#[derive(Clone, Copy, Debug, PartialEq, Eq, PartialOrd, Ord)]
pub enum Part {
    /// A whole cycle from a ready state.
    Cycle,
    /// Execute alone, from a state in mid-cycle that keeps the plain record and no write location.
    Execute,
}

/// A state, and what the stages are handed. Execute alone looks at neither the masked records nor the code word.
#[derive(Clone, Debug, PartialEq, Eq)]
pub struct Case {
    pub part: Part,
    pub settings: Settings,
    pub state: State,
    pub records: Records,
    pub code_word: Word,
    pub source: Register,
}

impl Case {
    /// Refusal 1: limit 0, or depth above limit. The store always has as many rows as the limit.
    pub fn has_bad_sizes(&self) -> bool {
        self.settings.limit == 0 || self.state.depth() > self.settings.limit
    }
}

#[derive(Clone, Copy, Debug, PartialEq, Eq)]
pub enum Fetch {
    Code(u64),
    Exception,
    Nop,
}

#[derive(Clone, Copy, Debug, PartialEq, Eq)]
pub enum Memory {
    Stack,
    Code,
}

#[derive(Clone, Copy, Debug, PartialEq, Eq)]
pub struct Location {
    pub memory: Memory,
    pub page: u32,
    pub index: u32,
    pub time: u32,
}

#[derive(Clone, Copy, Debug, PartialEq, Eq)]
pub struct Write {
    pub location: Location,
    pub value: Register,
}

#[derive(Clone, Copy, Debug, Default, PartialEq, Eq, PartialOrd, Ord)]
pub enum Event {
    #[default]
    None,
    Opened,
    Closed {
        panicked: bool,
    },
}

/// A case that finished: the state after it and the answers of its stages.
#[derive(Clone, Debug, PartialEq, Eq)]
pub struct Finished {
    pub state: State,
    /// `None` where execute ran alone
    pub before: Option<BeforeExecute>,
    pub write: Option<Write>,
    pub event: Event,
}

/// The answers of the stages before execute.
#[derive(Clone, Copy, Debug, PartialEq, Eq)]
pub struct BeforeExecute {
    pub code_read: Option<Location>,
    pub fetch: Fetch,
    pub error_flags: u64,
    pub charge: u32,
    pub source: Option<Location>,
    pub destination: Option<Location>,
}
