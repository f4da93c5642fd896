//! A row: its cases, and what the file says that the two do on each.

use crate::case::{place, Case, MOST_ROWS};
use crate::oracle::BUILT_WITH;
use crate::places::Refusal;
use std::fmt::{Display, Formatter};

#[derive(Clone, Copy)]
pub struct Entry {
    pub name: &'static str,
    pub what: What,
}

#[derive(Clone, Copy)]
pub enum What {
    Run(Run),
    /// It cannot be a case, and why.
    NoCase(&'static str),
}

#[derive(Clone, Copy)]
pub struct Run {
    pub cases: fn() -> Vec<Case>,
    pub rust: Rust,
    pub port: Port,
    pub needs: Needs,
    /// what of the Rust's part a stand-in has, if anything
    pub stand_in: &'static str,
    /// what document 02 has in the place of the Rust, if anything
    pub defined: &'static str,
}

pub const RECORDS: &str = "the records";
pub const RET_ABI: &str = "RetABI and FatPointer";

#[derive(Clone, Copy)]
pub enum Rust {
    /// in this file and function; `pop_entry` and `push_entry` panic at their caller's line
    Panics(&'static str, &'static str),
    Finishes,
    /// It comes to what is not at hand, and a stand-in panics.
    RunsAStandIn,
    CannotBeStated,
}

#[derive(Clone, Copy)]
pub enum Port {
    Refuses(Refusal),
    /// `ok`, with the Rust's numbers
    Same,
    /// `ok`, with other numbers than the Rust
    Another,
    /// `ok`, where the Rust cannot state it
    Finishes,
}

impl Entry {
    /// Document 02 has this in the place of the Rust.
    pub fn but_for(mut self, defined: &'static str) -> Self {
        if let What::Run(run) = &mut self.what {
            run.defined = defined;
        }
        self
    }

    /// A stand-in has this of the Rust's part.
    pub fn by(mut self, stand_in: &'static str) -> Self {
        if let What::Run(run) = &mut self.what {
            run.stand_in = stand_in;
        }
        self
    }
}

/// What the constants of the build have to be.
#[derive(Clone, Copy, PartialEq, Eq)]
pub enum Needs {
    /// so that depth 1 is below the limit
    LimitAbove1,
    /// the same, and a time step
    TimeStep,
    /// so that the limit is not 0
    LimitAbove0,
    Limit0,
    /// so that the format has a depth above the limit
    LimitBelow16,
}

impl Needs {
    pub fn is_met(self) -> bool {
        let limit = BUILT_WITH.limit;
        match self {
            Self::LimitAbove1 => limit > 1,
            Self::TimeStep => limit > 1 && BUILT_WITH.time_step > 0,
            Self::LimitAbove0 => limit > 0,
            Self::Limit0 => limit == 0,
            Self::LimitBelow16 => limit < MOST_ROWS,
        }
    }
}

impl Display for Needs {
    fn fmt(&self, f: &mut Formatter<'_>) -> std::fmt::Result {
        f.write_str(match self {
            Self::LimitAbove1 => "a build with a limit above 1",
            Self::TimeStep => "a build with a limit above 1 and a time step above 0",
            Self::LimitAbove0 => "a build with a limit above 0",
            Self::Limit0 => "a build with limit 0",
            Self::LimitBelow16 => "a build with a limit below 16",
        })
    }
}

impl Display for Run {
    fn fmt(&self, f: &mut Formatter<'_>) -> std::fmt::Result {
        match self.rust {
            Rust::Panics(file, function) => write!(f, "the Rust panics in {file}, {function}")?,
            Rust::Finishes => write!(f, "the Rust finishes")?,
            Rust::RunsAStandIn => write!(f, "the Rust runs what is not at hand, and a stand-in panics")?,
            Rust::CannotBeStated => write!(f, "the Rust cannot state it")?,
        }
        match self.port {
            Port::Refuses(refusal) => write!(f, "; {}", words(refusal)),
            Port::Same => write!(f, "; the port does the same"),
            Port::Another => write!(f, "; the port finishes in its own way"),
            Port::Finishes => write!(f, "; the port finishes"),
        }?;
        match (self.stand_in, self.defined) {
            ("", "") => Ok(()),
            ("", part) => write!(f, " (document 02 has {part})"),
            (part, _) => write!(f, " (a stand-in has {part})"),
        }
    }
}

/// As the file has it.
pub fn words(refusal: Refusal) -> String {
    let stage = ["fetch", "decode", "operands", "execute"][refusal.stage as usize];
    format!("{stage}: refusal {}", refusal.number)
}

pub const fn refuses(number: u32, stage: u32) -> Port {
    Port::Refuses(Refusal { number, stage })
}

/// A row about cases that are one cycle, or execute alone, at depth 1 or below.
pub fn row(name: &'static str, cases: fn() -> Vec<Case>, rust: Rust, port: Port) -> Entry {
    row_with(Needs::LimitAbove1, name, cases, rust, port)
}

pub fn row_with(needs: Needs, name: &'static str, cases: fn() -> Vec<Case>, rust: Rust, port: Port) -> Entry {
    Entry {
        name,
        what: What::Run(Run {
            cases,
            rust,
            port,
            needs,
            stand_in: "",
            defined: "",
        }),
    }
}

pub fn no_case(name: &'static str, why: &'static str) -> Entry {
    Entry {
        name,
        what: What::NoCase(why),
    }
}

/// The case with one thing changed.
pub fn with(mut case: Case, change: impl FnOnce(&mut Case)) -> Case {
    change(&mut case);
    case
}

/// The case with the plain record masked into panic: its price is 2, and the frame holds 1.
pub fn short_of_ergs(case: Case) -> Case {
    with(case, |case| {
        case.records.plain.price = 2;
        case.state.current.0[place::ERGS] = 1;
    })
}

/// The case with the plain record masked into nop: its condition is 1, and no flag is set.
pub fn not_met(case: Case) -> Case {
    with(case, |case| case.records.plain.condition = 1)
}
