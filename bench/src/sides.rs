//! The forms and the variants, by name, and one run of each.
use crate::forms::{self, End, Run};
use crate::machine::{CallStackEntry, Program};
use crate::plain::Plain;
use crate::rattle;
use crate::tuned::Tuned;
use crate::work::{Work, LIMIT};
use std::hint::black_box;

/// The words of a saved frame on the Rattle side, and the places of its pc and ergs.
pub const ROW: usize = 35;
const ROW_PC: usize = 18;
const ROW_ERGS: usize = 20;

#[derive(Clone, Copy, PartialEq, Eq, Debug)]
pub enum Form {
    Listing,
    Opaque,
    Staged,
}

/// The Rattle library or one of the two Rust programs. There the record that is carried out lies behind a reference or is copied;
/// only the end is handed out, or the whole machine.
#[derive(Clone, Copy, PartialEq, Eq, Debug)]
pub enum Variant {
    Rattle,
    PlainReference,
    PlainValue,
    TunedReference,
    TunedValue,
    TunedReferenceWhole,
    TunedValueWhole,
}

pub const FORMS: [Form; 3] = [Form::Listing, Form::Opaque, Form::Staged];
pub const VARIANTS: [Variant; 7] = [
    Variant::Rattle,
    Variant::PlainReference,
    Variant::PlainValue,
    Variant::TunedReference,
    Variant::TunedValue,
    Variant::TunedReferenceWhole,
    Variant::TunedValueWhole,
];

impl Form {
    pub fn name(self) -> &'static str {
        match self {
            Form::Listing => "listing",
            Form::Opaque => "opaque",
            Form::Staged => "staged",
        }
    }
}

impl Variant {
    pub fn name(self) -> &'static str {
        match self {
            Variant::Rattle => "rattle",
            Variant::PlainReference => "plain-reference",
            Variant::PlainValue => "plain-value",
            Variant::TunedReference => "tuned-reference",
            Variant::TunedValue => "tuned-value",
            Variant::TunedReferenceWhole => "tuned-reference-whole",
            Variant::TunedValueWhole => "tuned-value-whole",
        }
    }
}

/// Where frames are saved: rows of words for Rattle, structs for Rust. `tuned` has the current frame among them.
#[derive(Debug)]
pub struct Stores {
    rows: Vec<u32>,
    frames: Vec<CallStackEntry>,
}

impl Stores {
    pub fn new() -> Self {
        Stores {
            rows: vec![0; ROW * LIMIT as usize],
            frames: vec![CallStackEntry::default(); LIMIT as usize + 1],
        }
    }

    pub fn clear(&mut self) {
        self.rows.fill(0);
        self.frames.fill(CallStackEntry::default());
    }

    /// Ergs and pc of the caller that is saved at depth 2.
    pub fn caller(&self, variant: Variant) -> (u32, u32) {
        if variant == Variant::Rattle {
            let row = &self.rows[ROW..2 * ROW];
            (row[ROW_ERGS], row[ROW_PC])
        } else {
            (self.frames[1].ergs_remaining, self.frames[1].pc as u32)
        }
    }
}

fn run_rattle(form: Form, work: &Work, run: Run, store: &mut [u32]) -> End {
    match form {
        Form::Listing => rattle::listing(&work.listing, run, store),
        Form::Opaque => rattle::opaque(&work.opaque.numbers, &work.code, &work.source, run, store),
        Form::Staged => rattle::staged(&work.staged.numbers, &work.memory, run, store),
    }
}

fn run_rust<P: Program, const BY_VALUE: bool, const WHOLE: bool>(form: Form, work: &Work, run: Run, frames: &mut [CallStackEntry]) -> End {
    match form {
        Form::Listing => forms::listing::<P, BY_VALUE, WHOLE>(&work.listing, run, frames),
        Form::Opaque => forms::opaque::<P, BY_VALUE, WHOLE>(&work.opaque.held, &work.code, &work.source, run, frames),
        Form::Staged => forms::staged::<P, BY_VALUE, WHOLE>(&work.staged.held, &work.memory, run, frames),
    }
}

/// One run; nothing of what it is given is known to the compiler.
pub fn run(form: Form, variant: Variant, work: &Work, run: Run, stores: &mut Stores) -> End {
    let (work, run, stores) = (black_box(work), black_box(run), black_box(stores));
    match variant {
        Variant::Rattle => run_rattle(form, work, run, &mut stores.rows),
        Variant::PlainReference => run_rust::<Plain, false, false>(form, work, run, &mut stores.frames),
        Variant::PlainValue => run_rust::<Plain, true, false>(form, work, run, &mut stores.frames),
        Variant::TunedReference => run_rust::<Tuned, false, false>(form, work, run, &mut stores.frames),
        Variant::TunedValue => run_rust::<Tuned, true, false>(form, work, run, &mut stores.frames),
        Variant::TunedReferenceWhole => run_rust::<Tuned, false, true>(form, work, run, &mut stores.frames),
        Variant::TunedValueWhole => run_rust::<Tuned, true, true>(form, work, run, &mut stores.frames),
    }
}
