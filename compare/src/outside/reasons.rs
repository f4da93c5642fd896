//! Why a case is outside the domain, in the order of the refusals.

use crate::case::*;
use crate::list::reasons as by_record;
use crate::oracle::{Ran, BUILT_WITH};
use std::fmt::{Display, Formatter};

#[derive(Clone, Debug, PartialEq, Eq, PartialOrd, Ord)]
pub enum Reason {
    Limit0,
    DepthAboveLimit,
    /// a setting that is not the constant
    Setting(&'static str),
    Row(&'static str),
    /// of refusal 3, and whether the record is the one that was kept
    Record(String, Option<bool>),
    /// of refusal 3
    SomeRecord,
    Other,
    Pointer,
    FarReturn,
    /// what the Rust's functions of the operations do not choose
    Source,
    /// more than one, or none that is known
    Several,
}

impl Reason {
    pub fn is_about_settings(&self) -> bool {
        matches!(self, Self::Setting(_))
    }

    /// What a stand-in has of it, so that the Rust's outcome is not the Rust's alone.
    pub fn stand_in(&self) -> &'static str {
        match self {
            Self::Record(..) | Self::SomeRecord => "the records",
            Self::Other => "the operation",
            Self::Pointer => "erase_fat_pointer_metadata",
            Self::FarReturn => "RetABI, FatPointer",
            _ => "",
        }
    }
}

impl Display for Reason {
    fn fmt(&self, f: &mut Formatter<'_>) -> std::fmt::Result {
        let text = match self {
            Self::Limit0 => "limit 0",
            Self::DepthAboveLimit => "depth above the limit",
            Self::Setting(name) => return write!(f, "{name} other than the constant"),
            Self::Row(which) => which,
            Self::Record(text, kept) => {
                let kept = kept.map_or("", |is_kept| if is_kept { ", kept" } else { ", not kept" });
                return write!(f, "{text}{kept}");
            }
            Self::SomeRecord => "refusal 3",
            Self::Other => "operation 5",
            Self::Pointer => "pointer",
            Self::FarReturn => "far return",
            Self::Source => "source in memory, or swap",
            Self::Several => "several",
        };
        write!(f, "{text}")
    }
}

/// All that hold. `ran` is there where the Rust could state the case.
pub fn of(case: &Case, ran: Option<&Ran>) -> Vec<Reason> {
    let mut reasons = of_sizes(case);
    reasons.extend(of_rows(&case.state.saved));
    reasons.extend(of_records(case, ran.and_then(|ran| ran.kept)));
    reasons.extend(ran.and_then(|ran| ran.left_out).map(|number| match number {
        5 => Reason::Other,
        6 => Reason::Pointer,
        _ => Reason::FarReturn,
    }));
    let plain = &case.records.plain;
    let is_chosen = plain.swap || !matches!(plain.source_kind, kind::REGISTER | kind::IMMEDIATE);
    if reasons.is_empty() && case.part == Part::Execute && is_chosen {
        reasons.push(Reason::Source);
    }
    reasons
}

fn of_sizes(case: &Case) -> Vec<Reason> {
    let Settings {
        limit,
        multiplier,
        time_step,
    } = case.settings;
    let reasons = [
        (Reason::Limit0, limit == 0),
        (Reason::DepthAboveLimit, limit > 0 && case.state.depth() > limit),
        (Reason::Setting("limit"), limit > 0 && limit != BUILT_WITH.limit),
        (Reason::Setting("multiplier"), multiplier != BUILT_WITH.multiplier),
        (Reason::Setting("time step"), time_step != BUILT_WITH.time_step),
    ];
    let holding = reasons.into_iter().filter(|(_, is_holding)| *is_holding);
    holding.map(|(reason, _)| reason).collect()
}

fn of_rows(saved: &[Row]) -> Option<Reason> {
    let (top, others) = saved.split_last()?;
    if !top.is_good() {
        Some(Reason::Row("top row not good"))
    } else if !others.iter().all(Row::is_good) {
        Some(Reason::Row("row below the top not good"))
    } else {
        None
    }
}

fn of_records(case: &Case, kept: Option<Choice>) -> Vec<Reason> {
    let Case { part, state, records, .. } = case;
    if *part == Part::Execute {
        let fields = by_record::fields("plain", &records.plain);
        return fields.into_iter().map(|text| Reason::Record(text, None)).collect();
    }
    let of_state = by_record::plain_reasons(state, &records.plain);
    let of_fields = by_record::record_reasons(records).into_iter();
    of_fields
        .chain(of_state)
        .map(|text| {
            let choice = match text.split(' ').next() {
                Some("panic") => Choice::Panic,
                Some("nop") => Choice::Nop,
                _ => Choice::Plain,
            };
            Reason::Record(text, kept.map(|kept| kept == choice))
        })
        .collect()
}
