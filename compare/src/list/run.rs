//! A case and how it went.

use crate::case::*;
use crate::oracle::{Answer, Outcome};

pub struct Run<'a> {
    pub case: &'a Case,
    pub outcome: &'a Outcome,
    /// which record was kept, where the Rust came so far
    pub kept: Option<Kept<'a>>,
}

#[derive(Clone, Copy)]
pub struct Kept<'a> {
    pub choice: Choice,
    pub record: &'a Record,
}

impl<'a> Run<'a> {
    pub fn new(case: &'a Case, answer: &'a Answer) -> Self {
        let kept = |choice| Kept {
            choice,
            record: case.records.kept(choice),
        };
        Self {
            case,
            outcome: &answer.outcome,
            kept: answer.kept.map(kept),
        }
    }

    /// A word of the current frame.
    pub fn current(&self, place: usize) -> u32 {
        self.case.state.current.0[place]
    }

    /// What the current frame holds after the charge.
    pub fn held(&self) -> u32 {
        let price = self.case.records.plain.price;
        match self.case.part {
            Part::Cycle if !self.case.state.has_ended() => self.current(place::ERGS).saturating_sub(price),
            _ => self.current(place::ERGS),
        }
    }

    /// src0 and src1 after the swap.
    pub fn sources(&self, record: &Record) -> [Register; 2] {
        let state = &self.case.state;
        let src1 = state.register(record.src1);
        let src0 = match record.source_kind {
            kind::REGISTER => state.register(record.src0),
            kind::IMMEDIATE => Register {
                value: [record.imm_0.into(), 0, 0, 0],
                is_pointer: false,
            },
            _ if record.is_nop() => Register::default(),
            _ => self.case.source,
        };
        if record.swap {
            [src1, src0]
        } else {
            [src0, src1]
        }
    }
}

/// The operation, with the kind of a return.
pub fn name(record: &Record) -> &'static str {
    match (record.operation, record.return_kind) {
        (operation::RETURN, return_kind::OK) => "return ok",
        (operation::RETURN, return_kind::REVERT) => "return revert",
        (operation::RETURN, _) => "return panic",
        (number, _) => operation::NAMES[usize::from(number)],
    }
}
