//! Runs the Rust on a case: `VmState::cycle`, or the function of an operation alone.

use crate::alone;
use crate::case::*;
use crate::convert::*;
use crate::format;
use crate::machine::{machine, Decoded, Machine, Query, Recorder};
use crate::places::{self, Place, Refusal};
use std::cell::{Cell, RefCell};
use std::panic::{self, AssertUnwindSafe, PanicHookInfo};
use std::path::Path;
use std::sync::Once;
use zk_evm_abstractions::aux::MemoryLocation;
use zk_evm_abstractions::queries::MemoryQuery;
use zkevm_opcode_defs::decoding::encoding_mode_production::Encoding;
use zkevm_opcode_defs::ethereum_types::U256;
use zkevm_opcode_defs::{instruction, system_params};

/// The constants that the Rust is built with.
pub const BUILT_WITH: Settings = Settings {
    limit: system_params::VM_MAX_STACK_DEPTH,
    multiplier: system_params::INTERNAL_ERGS_TO_VISIBLE_ERGS_CONVERSION_CONSTANT,
    time_step: system_params::TIME_DELTA_PER_CYCLE,
};

const _: () = assert!(BUILT_WITH.limit <= MOST_ROWS, "the depth limit is at most 16");

pub enum Outcome {
    Finished(Box<Finished>),
    Panicked(Place),
    /// In the domain, but said by document 01 alone: a sum of `cycle` that execute alone does not come to in the Rust.
    Refused(Refusal),
    /// Outside document 01's domain of equality, with the refusal that puts it there, where it is one.
    Outside(Option<Refusal>),
}

impl Outcome {
    /// The result line.
    pub fn line(&self) -> String {
        match self {
            Self::Finished(finished) => format::finished_line(finished),
            Self::Panicked(place) => format!("panicked {place}"),
            Self::Refused(refusal) => refusal.to_string(),
            Self::Outside(_) => "outside".into(),
        }
    }

    /// The refusal that the port owes, if any.
    pub fn refusal(&self) -> Option<Refusal> {
        match self {
            Self::Finished(_) => None,
            Self::Panicked(place) => places::refusal_at(place),
            Self::Refused(refusal) => Some(*refusal),
            Self::Outside(refusal) => *refusal,
        }
    }
}

/// What the Rust did on a case, in the domain or not.
pub struct Ran {
    pub outcome: Outcome,
    pub kept: Option<Choice>,
    /// Which of refusals 5 to 7 is owed, if any, where the Rust came to the operation.
    pub left_out: Option<u32>,
}

impl Ran {
    /// The answer, which refusals 5 to 7 put outside the domain.
    fn answer(self) -> Answer {
        let left_out = self.left_out.map(|number| {
            Outcome::Outside(Some(Refusal {
                number,
                stage: places::EXECUTE,
            }))
        });
        Answer {
            outcome: left_out.unwrap_or(self.outcome),
            kept: self.kept,
        }
    }
}

pub struct Answer {
    pub outcome: Outcome,
    /// The record that decode kept, where the Rust came so far. Execute alone is handed the plain one as kept.
    pub kept: Option<Choice>,
}

/// Runs cases, with the Rust's panics kept silent and their places noted.
pub struct Oracle(());

static HOOK: Once = Once::new();

thread_local! {
    static IS_RUNNING: Cell<bool> = const { Cell::new(false) };
    static PANIC_PLACE: RefCell<Option<Place>> = const { RefCell::new(None) };
}

impl Oracle {
    /// Takes over the panic hook. A panic of anything but the Rust is reported as before.
    pub fn new() -> Self {
        HOOK.call_once(|| {
            let report = panic::take_hook();
            panic::set_hook(Box::new(move |info| {
                if IS_RUNNING.get() {
                    PANIC_PLACE.set(place_of(info));
                } else {
                    report(info);
                }
            }));
        });
        Self(())
    }

    pub fn run(&self, case: &Case) -> Answer {
        match case.part {
            Part::Cycle => self.run_cycle(case),
            Part::Execute => alone::run(self, case),
        }
    }

    fn run_cycle(&self, case: &Case) -> Answer {
        match check_domain(case) {
            Ok(instructions) => self.step(case, instructions).answer(),
            Err(refusal) => Answer {
                outcome: Outcome::Outside(refusal),
                kept: None,
            },
        }
    }

    /// Runs the Rust on a case, in the domain or not, wherever its types and the stand-ins can state it.
    pub fn run_anyway(&self, case: &Case) -> Result<Ran, Unstated> {
        if !case.state.saved.iter().all(Row::is_good) {
            return Err("a row that is not good");
        }
        match case.part {
            Part::Cycle => Ok(self.step(case, state_instructions(&case.records)?)),
            Part::Execute => alone::run_anyway(self, case),
        }
    }

    fn step(&self, case: &Case, instructions: instruction::InstructionRecords) -> Ran {
        instruction::hand_in(instructions);
        let mut machine = machine(to_local_state(&case.state), U256(case.code_word), to_primitive(case.source));
        let mut recorder = Recorder::default();
        let outcome = match self.catch(|| machine.cycle(&mut recorder)) {
            Err(place) => Outcome::Panicked(place),
            Ok(result) => {
                result.expect("no operation carried over makes an error");
                Outcome::Finished(Box::new(finished(case, &machine, &recorder)))
            }
        };
        // the time of a write is refused by operands, before execute owes any of them
        let is_of_operands = matches!(&outcome, Outcome::Panicked(place) if places::is_of_operands(place));
        let left_out = recorder.operands.and_then(|operands| operands.left_out);
        Ran {
            outcome,
            kept: recorder.decoded.map(|decoded| kept(case, &decoded)),
            left_out: left_out.filter(|_| !is_of_operands),
        }
    }

    /// Runs a part of the Rust: what it gives, or where it panics.
    pub fn catch<T>(&self, part: impl FnOnce() -> T) -> Result<T, Place> {
        IS_RUNNING.set(true);
        let end = panic::catch_unwind(AssertUnwindSafe(part));
        IS_RUNNING.set(false);
        end.map_err(|_| PANIC_PLACE.take().expect("the hook saw the panic"))
    }
}

fn kept(case: &Case, decoded: &Decoded) -> Choice {
    let choice = decoded.choice();
    let record = case.records.kept(choice);
    assert_eq!(operation_of(decoded.kept), record.operation, "another record was kept");
    choice
}

fn place_of(info: &PanicHookInfo) -> Option<Place> {
    let location = info.location()?;
    let path = Path::new(location.file());
    let file = path.strip_prefix(zk_evm::FOLDER).unwrap_or(path);
    Some(Place {
        file: file.to_string_lossy().into_owned(),
        line: location.line(),
    })
}

/// The part of the domain that can be told before the cycle runs. Refusals 5 to 7 are told by the machine's recorder.
fn check_domain(case: &Case) -> Result<instruction::InstructionRecords, Option<Refusal>> {
    let state = &case.state;
    if case.has_bad_sizes() {
        return Err(Some(Refusal {
            number: 1,
            stage: places::FETCH,
        }));
    }
    if case.settings != BUILT_WITH {
        return Err(None);
    }
    if !state.saved.iter().all(Row::is_good) {
        return Err(None);
    }
    let instructions = to_instructions(&case.records);
    let is_refused_by_fetch = state.has_ended() && state.pending_exception;
    match instructions {
        Some(instructions) if is_refused_by_fetch || are_fitting(case) => Ok(instructions),
        _ if is_refused_by_fetch => Err(Some(Refusal {
            number: 4,
            stage: places::FETCH,
        })),
        _ => Err(Some(Refusal {
            number: 3,
            stage: places::DECODE,
        })),
    }
}

/// The parts of refusal 3 that are not about single fields: do the three records fit together and to the state?
fn are_fitting(case: &Case) -> bool {
    let Case { state, records, .. } = case;
    let plain = &records.plain;
    let is_unflagged = !plain.explicit_panic
        && (!plain.kernel_only || state.current.is_kernel())
        && (plain.allowed_when_static || state.current.0[place::STATIC] == 0);
    records.panic.is_panic_return()
        && records.nop.is_nop()
        && (!state.has_ended() || plain.is_nop() && is_unflagged)
        && (!state.pending_exception || plain.is_panic_return())
}

/// The memory queries of a cycle. The source is read where the stages say, and there are no others.
struct Queries {
    code_read: Option<MemoryQuery>,
    source_read: Option<MemoryQuery>,
    write: Option<MemoryQuery>,
}

impl Queries {
    fn of(machine: &Machine, source: Option<MemoryLocation>) -> Self {
        let all = machine.memory.queries();
        let find = |is_wanted: fn(&Query) -> bool| all.iter().copied().find(is_wanted).map(|query| query.query);
        let code_read = find(|query| query.is_fetch);
        let source_read = find(|query| !query.is_fetch && !query.query.rw_flag);
        let write = find(|query| query.query.rw_flag);

        let made = [code_read, source_read, write].into_iter().flatten().count();
        assert_eq!(made, all.len(), "more memory queries than a cycle has");
        assert_eq!(source_read.map(|read| read.location), source, "the source read is elsewhere");
        Self {
            code_read,
            source_read,
            write,
        }
    }

    /// Where no write is made there is no query, and "any other operation's write location carries 0".
    fn write_time(&self) -> u32 {
        self.write.map_or(0, |write| write.timestamp.0)
    }
}

/// The machine's state after a case.
pub fn state_after(case: &Case, machine: &Machine) -> State {
    let state = from_local_state(&machine.local_state);
    with_openings(&case.state, state, machine.witness_tracer.counter)
}

fn finished(case: &Case, machine: &Machine, recorder: &Recorder) -> Finished {
    let decoded = recorder.decoded.expect("decoding was traced");
    let operands = recorder.operands.expect("execution was traced");
    let queries = Queries::of(machine, operands.source);
    if let Some(write) = queries.write {
        assert_eq!(Some(write.location), recorder.destination, "the write is elsewhere");
    }
    let before = BeforeExecute {
        code_read: queries.code_read.map(from_query),
        fetch: match decoded.encoding {
            Encoding::Code(bits) => Fetch::Code(bits),
            Encoding::Exception => Fetch::Exception,
            Encoding::Nop => Fetch::Nop,
        },
        error_flags: decoded.error_flags,
        charge: case.state.current.0[place::ERGS] - operands.ergs_after_charge,
        source: queries.source_read.map(from_query),
        destination: recorder.destination.map(|location| from_location(location, queries.write_time())),
    };
    Finished {
        state: state_after(case, machine),
        before: Some(before),
        write: queries.write.map(|write| Write {
            location: from_query(write),
            value: Register {
                value: write.value.0,
                is_pointer: write.value_is_pointer,
            },
        }),
        event: machine.storage.event,
    }
}
