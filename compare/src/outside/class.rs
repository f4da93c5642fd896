//! The class of a case: why it is outside the domain, and what the two do.

use super::reasons::{self, Reason};
use crate::case::{Case, Part};
use crate::compare;
use crate::convert::Unstated;
use crate::format;
use crate::oracle::{Oracle, Outcome, Ran};
use crate::places::{self, Place};
use crate::replay::Replay;
use std::collections::BTreeMap;
use std::fmt::{Display, Formatter};
use std::io;

#[derive(Clone, Debug, PartialEq, Eq, PartialOrd, Ord)]
pub struct Class {
    pub part: Part,
    pub reason: Reason,
    /// whether a setting is not the constant
    pub has_other_settings: bool,
    pub port: Port,
    pub rust: Rust,
}

#[derive(Clone, Debug, PartialEq, Eq, PartialOrd, Ord)]
pub enum Port {
    /// `ok`, with the Rust's numbers
    Equal,
    /// `ok`, with other numbers
    Different,
    /// `ok`, where the Rust does not finish
    Ok,
    /// the answer
    Refused(String),
    /// the answer, and the one that is owed
    NotOwed(String, String),
}

#[derive(Clone, Debug, PartialEq, Eq, PartialOrd, Ord)]
pub enum Rust {
    Finished,
    /// the place and its function
    Panicked(String),
    StandInPanicked(String),
    Unstated(Unstated),
}

/// What the two do, in short.
#[derive(Clone, Copy, Debug, PartialEq, Eq, PartialOrd, Ord)]
pub enum Ends {
    Equal,
    OtherByConstants,
    Other,
    OkUnstated,
    RefusedFinished,
    RefusedPanicked,
    RefusedStandIn,
    RefusedUnstated,
    NotOwed,
}

impl Class {
    pub fn ends(&self) -> Ends {
        match (&self.port, &self.rust) {
            (Port::NotOwed(..), _) => Ends::NotOwed,
            (Port::Equal, _) => Ends::Equal,
            (Port::Refused(_), Rust::Finished) => Ends::RefusedFinished,
            (Port::Refused(_), Rust::Panicked(_)) => Ends::RefusedPanicked,
            (Port::Refused(_), Rust::StandInPanicked(_)) => Ends::RefusedStandIn,
            (Port::Refused(_), Rust::Unstated(_)) => Ends::RefusedUnstated,
            (_, Rust::Unstated(_)) => Ends::OkUnstated,
            _ if self.has_other_settings => Ends::OtherByConstants,
            _ => Ends::Other,
        }
    }

    /// The port does not do what is owed, or goes on where the Rust, with the same settings, does something else.
    pub fn is_alarming(&self) -> bool {
        matches!(self.ends(), Ends::NotOwed | Ends::Other)
    }
}

impl Display for Class {
    fn fmt(&self, f: &mut Formatter<'_>) -> std::fmt::Result {
        let part = match self.part {
            Part::Cycle => "cycle",
            Part::Execute => "execute",
        };
        let stand_in = self.reason.stand_in();
        write!(f, "{part} | {} | {} | {} | {stand_in}", self.reason, self.port, self.rust)
    }
}

impl Display for Port {
    fn fmt(&self, f: &mut Formatter<'_>) -> std::fmt::Result {
        match self {
            Self::Equal => write!(f, "ok, equal"),
            Self::Different => write!(f, "ok, different"),
            Self::Ok => write!(f, "ok"),
            Self::Refused(answer) => write!(f, "{answer}"),
            Self::NotOwed(answer, owed) => write!(f, "{answer}, but owed is {owed}"),
        }
    }
}

impl Display for Rust {
    fn fmt(&self, f: &mut Formatter<'_>) -> std::fmt::Result {
        match self {
            Self::Finished => write!(f, "finished"),
            Self::Panicked(place) => write!(f, "panicked {place}"),
            Self::StandInPanicked(place) => write!(f, "panicked in a stand-in, {place}"),
            Self::Unstated(what) => write!(f, "cannot be stated: {what}"),
        }
    }
}

impl Display for Ends {
    fn fmt(&self, f: &mut Formatter<'_>) -> std::fmt::Result {
        f.write_str(match self {
            Self::Equal => "ok, equal",
            Self::OtherByConstants => "ok, and the Rust another with its constants",
            Self::Other => "ok, and the Rust another with the same settings",
            Self::OkUnstated => "ok, the Rust cannot state it",
            Self::RefusedFinished => "refused, the Rust finishes",
            Self::RefusedPanicked => "refused, the Rust panics",
            Self::RefusedStandIn => "refused, a stand-in panics",
            Self::RefusedUnstated => "refused, the Rust cannot state it",
            Self::NotOwed => "not what is owed",
        })
    }
}

/// Runs both on a case.
pub struct Looker {
    oracle: Oracle,
    replay: Replay,
    /// where the Rust panicked so far
    places: BTreeMap<Place, Rust>,
}

impl Looker {
    pub fn new(replay: Replay) -> Self {
        Self {
            oracle: Oracle::new(),
            replay,
            places: BTreeMap::new(),
        }
    }

    pub fn stop(self) -> io::Result<()> {
        self.replay.stop()
    }

    pub fn class(&mut self, case: &Case) -> io::Result<Class> {
        let ran = self.oracle.run_anyway(case);
        let answer = self.replay.answer(case)?;
        let reasons = reasons::of(case, ran.as_ref().ok());
        let has_other_settings = reasons.iter().any(Reason::is_about_settings);
        let reason = the_reason(reasons, &ran);
        let port = match self.owed(case, &reason, &ran) {
            Some(owed) if owed != answer => Port::NotOwed(answer, owed),
            _ => port(answer, &ran),
        };
        Ok(Class {
            part: case.part,
            reason,
            has_other_settings,
            port,
            rust: self.rust(&ran),
        })
    }

    /// The line that the port owes, if any: by document 01, or by the Rust where the case could as well have been in the domain.
    fn owed(&self, case: &Case, reason: &Reason, ran: &Result<Ran, Unstated>) -> Option<String> {
        let by_document = self.oracle.run(case).outcome.refusal();
        match (by_document, ran) {
            (Some(refusal), _) => Some(refusal.to_string()),
            (None, Ok(ran)) if *reason == Reason::Source => {
                let refusal = ran.outcome.refusal().map(|refusal| refusal.to_string());
                Some(refusal.unwrap_or(ran.outcome.line()))
            }
            _ => None,
        }
    }

    fn rust(&mut self, ran: &Result<Ran, Unstated>) -> Rust {
        match ran.as_ref().map(|ran| &ran.outcome) {
            Ok(Outcome::Finished(_)) => Rust::Finished,
            Ok(Outcome::Panicked(place)) => self.panicked(place),
            Ok(Outcome::Refused(_)) => Rust::Unstated("the counter's sum, which stands in `cycle`"),
            Ok(Outcome::Outside(_)) => unreachable!("a case of any kind is run"),
            Err(unstated) => Rust::Unstated(unstated),
        }
    }

    fn panicked(&mut self, place: &Place) -> Rust {
        let make = || match places::function_at(place) {
            Some(function) => Rust::Panicked(format!("{place}, {function}")),
            None => Rust::StandInPanicked(place.to_string()),
        };
        self.places.entry(place.clone()).or_insert_with(make).clone()
    }

    /// What differs where both finish.
    pub fn differing_fields(&mut self, case: &Case) -> io::Result<Vec<String>> {
        let answer = self.replay.answer(case)?;
        match self.oracle.run_anyway(case).map(|ran| ran.outcome) {
            Ok(Outcome::Finished(finished)) => Ok(compare::differing_fields(
                &format::finished_names(&finished),
                &format::finished_line(&finished),
                &answer,
            )),
            _ => Ok(Vec::new()),
        }
    }
}

/// The one reason. A panic that cases in the domain have, too, is told by the refusal alone, so that the classes stay few.
fn the_reason(reasons: Vec<Reason>, ran: &Result<Ran, Unstated>) -> Reason {
    let mut reasons = reasons.into_iter();
    match (reasons.next(), reasons.next(), ran.as_ref().map(|ran| &ran.outcome)) {
        (Some(Reason::Record(..)), None, Ok(Outcome::Panicked(place))) if places::refusal_at(place).is_some() => Reason::SomeRecord,
        (Some(reason), None, _) => reason,
        _ => Reason::Several,
    }
}

fn port(answer: String, ran: &Result<Ran, Unstated>) -> Port {
    let is_ok = answer.starts_with("ok ");
    match ran.as_ref().map(|ran| &ran.outcome) {
        Ok(Outcome::Finished(finished)) if is_ok && format::finished_line(finished) == answer => Port::Equal,
        Ok(Outcome::Finished(_)) if is_ok => Port::Different,
        _ if is_ok => Port::Ok,
        _ => Port::Refused(answer),
    }
}
