//! Cases by seed, over the domain of document 01 and its edges. Most of them finish.

pub mod calm;
mod leave;
mod records;
mod returns;
mod short;
mod spoil;
mod values;

use crate::case::*;
use crate::oracle::BUILT_WITH;
use crate::random::Random;

/// One case in so many is about execute alone.
const ALONE: u64 = 8;

/// So many cases that the seed makes.
pub fn all(seed: u64, count: u64) -> impl Iterator<Item = Case> {
    (0..count).map(move |number| case(seed, number))
}

/// The case with this number: some 4 in 100 are spoiled.
pub fn case(seed: u64, number: u64) -> Case {
    let mut maker = Maker::new(seed, number);
    let mut case = maker.case(number);
    if maker.random.per_mille(40) {
        maker.spoil(&mut case);
    }
    maker.open(&mut case.state);
    case
}

/// One for a list: its line is short, but for some, which keep all their fields, so that one taken for another shows.
pub fn short(seed: u64, number: u64) -> Case {
    let mut maker = Maker::new(seed, number);
    let mut case = maker.case(number);
    maker.drop_rows(&mut case.state.saved);
    if case.state.depth() > 3 || maker.random.below(14) != 0 {
        maker.shorten(&mut case);
    }
    maker.open(&mut case.state);
    case
}

/// A short one that is spoiled.
pub fn short_spoiled(seed: u64, number: u64) -> Case {
    let mut maker = Maker::new(seed, number);
    let mut case = maker.case(number);
    maker.drop_rows(&mut case.state.saved);
    maker.shorten(&mut case);
    maker.spoil(&mut case);
    maker.open(&mut case.state);
    case
}

/// One that most often leaves the domain, as many as possible for one reason alone.
pub fn leaving(seed: u64, number: u64) -> Case {
    let mut maker = Maker::new(seed, number);
    let mut case = match maker.random.below(4) {
        0 | 1 => maker.bare(),
        2 => {
            let mut case = maker.case(number);
            maker.drop_rows(&mut case.state.saved);
            maker.shorten(&mut case);
            case
        }
        _ => maker.case(number),
    };
    maker.leave(&mut case);
    if maker.random.below(8) == 0 {
        maker.leave(&mut case);
    }
    maker.open(&mut case.state);
    case
}

struct Maker {
    random: Random,
    /// for the cycles of opening: the other draws do not depend on them
    openings: Random,
}

impl Maker {
    fn new(seed: u64, number: u64) -> Self {
        Self {
            random: Random::of_case(seed, number),
            openings: Random::of_case(!seed, number),
        }
    }

    fn case(&mut self, number: u64) -> Case {
        if number % ALONE == ALONE - 1 {
            self.execute()
        } else {
            self.cycle()
        }
    }

    fn cycle(&mut self) -> Case {
        let depth = self.depth([60, 120]);
        let current = self.current();
        let pending_exception = self.random.per_mille(if depth == 0 { 60 } else { 80 });
        let plain = self.plain(&current, depth == 0, pending_exception);
        let left = current.0[place::ERGS].saturating_sub(plain.price);
        let state = self.state(current, depth, pending_exception, left);
        self.of_state(Part::Cycle, state, plain, left)
    }

    /// Nothing is charged, and any state may be that in mid-cycle.
    fn execute(&mut self) -> Case {
        let depth = self.depth([200, 250]);
        let current = self.current();
        let plain = self.kept(&current);
        let left = current.0[place::ERGS];
        let pending_exception = self.random.per_mille(80);
        let state = self.state(current, depth, pending_exception, left);
        self.of_state(Part::Execute, state, plain, left)
    }

    /// The case of this state, whose current frame holds `left` after the charge.
    fn of_state(&mut self, part: Part, mut state: State, plain: Record, left: u32) -> Case {
        self.settle_return(&mut state, left);
        Case {
            part,
            settings: BUILT_WITH,
            state,
            records: Records {
                plain,
                panic: self.masked(operation::RETURN, return_kind::PANIC),
                nop: self.masked(operation::NOP, return_kind::OK),
            },
            code_word: self.word(left),
            source: Register {
                value: self.word(left),
                is_pointer: self.random.per_mille(80),
            },
        }
    }

    /// Depth 0 and the limit, each in so many of a thousand, and what is between.
    fn depth(&mut self, [ended, full]: [u32; 2]) -> u32 {
        let limit = BUILT_WITH.limit;
        let part = self.random.below(1000);
        if part < ended {
            0
        } else if part < ended + full || limit <= 1 {
            limit
        } else {
            1 + self.random.below(limit - 1)
        }
    }

    /// A current frame, mostly a local one.
    fn current(&mut self) -> Row {
        let mut current = self.row();
        current.0[place::LOCAL] = (!self.random.per_mille(100)).into();
        current
    }

    /// A frame that is good, each field with its edges.
    fn row(&mut self) -> Row {
        let mut row = Row([0; ROW]);
        row.0[..place::OPENING].iter_mut().for_each(|word| *word = self.random.u32());
        let this_address = self.address();
        row.0[place::ADDRESSES..][..5].copy_from_slice(&this_address);
        row.0[place::BASE_PAGE] = match self.random.below(40) {
            0 => u32::MAX,
            1 => u32::MAX - 1,
            2 => 0,
            _ => self.random.below(1 << 16),
        };
        row.0[place::CODE_PAGE] = self.random.below(4);
        for i in place::SP..=place::HANDLER {
            row.0[i] = self.narrow().into();
        }
        row.0[place::ERGS] = self.ergs();
        for i in place::SHARDS..place::STATIC {
            row.0[i] = self.random.below(256);
        }
        row.0[place::STATIC] = self.random.per_mille(250).into();
        row.0[place::LOCAL] = self.random.bit().into();
        for i in [place::HEAP_BOUND, place::AUX_HEAP_BOUND] {
            row.0[i] = self.wide();
        }
        row.0[place::PUBDATA] = self.signed();
        row
    }

    /// When each frame was opened: often near the counter, most often short.
    fn open(&mut self, state: &mut State) {
        for row in state.saved.iter_mut().chain([&mut state.current]) {
            row.0[place::OPENING] = match self.openings.below(16) {
                0 => 0,
                1 => u32::MAX,
                2 => self.openings.u32(),
                3..6 => state.cycle_counter.wrapping_add(self.openings.below(5)).wrapping_sub(2),
                _ => self.openings.below(1000),
            };
        }
    }

    /// Registers. Some are equal to another, or its negative, so that sums and differences come to 0.
    fn registers(&mut self, left: u32) -> [Register; REGISTERS] {
        let mut registers = [Register::default(); REGISTERS];
        for i in 0..REGISTERS {
            let other = registers[self.random.below(REGISTERS as u32) as usize].value;
            registers[i] = Register {
                value: match self.random.below(8) {
                    0 => other,
                    1 => values::negative(other),
                    _ => self.word(left),
                },
                is_pointer: self.random.per_mille(80),
            };
        }
        registers
    }

    /// `left` is what the frame holds after the charge, so that words come near it.
    fn state(&mut self, current: Row, depth: u32, pending_exception: bool, left: u32) -> State {
        let code_page = current.0[place::CODE_PAGE];
        let super_pc = (current.0[place::PC] / 4) as u16;
        State {
            registers: self.registers(left),
            flags: std::array::from_fn(|_| self.random.bit()),
            timestamp: self.time(),
            cycle_counter: match self.random.below(50) {
                0 => u32::MAX,
                1 => u32::MAX - 1,
                _ => self.random.u32(),
            },
            pending_exception,
            previous_code_word: self.word(left),
            previous_code_page: if self.random.per_mille(700) {
                code_page
            } else {
                self.random.below(4)
            },
            previous_super_pc: match self.random.below(10) {
                0..6 => super_pc,
                6 => super_pc.wrapping_add(1),
                7 => super_pc | 1 << 14,
                _ => self.narrow(),
            },
            revert_counter: self.signed(),
            current,
            saved: (0..depth).map(|_| self.row()).collect(),
        }
    }
}
