//! What is said of a fact, in words.

use std::collections::BTreeSet;

use crate::names::listed;
use crate::near::{Said, Variable};
use crate::words::Telling;

impl Telling<'_> {
    fn papers(&self, pairs: &BTreeSet<(bool, u8)>, wanted: bool) -> String {
        let papers = pairs.iter().filter(|(value, _)| *value == wanted);
        listed(papers.map(|(_, evidence)| self.names.of("evidence", *evidence)))
    }

    /// Why a fact is open.
    fn why_open(&self, told: &Said) -> String {
        match told {
            Said::Unknown { evidence } => {
                format!("said to be unknown, by {}", self.names.of("evidence", *evidence))
            }
            Said::Observed(pairs) => self.conflict(pairs),
            Said::OtherScope { family } => {
                let family = self.names.of("family", *family);
                format!("told, but {family} is of another scope than the roster")
            }
            Said::Nothing | Said::Default { .. } | Said::Silence { .. } => "not told".to_string(),
        }
    }

    fn conflict(&self, pairs: &BTreeSet<(bool, u8)>) -> String {
        let has = |wanted: bool| pairs.iter().any(|(value, _)| *value == wanted);
        match (has(false), has(true)) {
            (true, true) => {
                let (no, yes) = (self.papers(pairs, false), self.papers(pairs, true));
                format!("told yes by {yes}, and no by {no}")
            }
            (_, yes) => {
                let (word, papers) = (if yes { "yes" } else { "no" }, self.papers(pairs, yes));
                format!("told {word} by different papers, {papers}, which is a conflict")
            }
        }
    }

    /// An open fact or decision, and why it is open.
    pub(crate) fn variable(&self, variable: Variable) -> String {
        match variable {
            Variable::Fact(number) => {
                let why = self.near.said(number).map(|told| self.why_open(told));
                format!("{} ({})", self.things.fact(number), why.unwrap_or_default())
            }
            Variable::Decision(_) => self.called(variable),
        }
    }

    /// An open fact or decision.
    pub(crate) fn called(&self, variable: Variable) -> String {
        match variable {
            Variable::Fact(number) => self.things.fact(number),
            Variable::Decision(place) => match self.near.decision(place) {
                Some((cut, edge)) => self.things.decision(place, cut, edge),
                None => format!("decision {place}"),
            },
        }
    }

    /// A fact of one value, with its answer and where that comes from.
    pub(crate) fn known(&self, number: u8, value: bool) -> String {
        let fact = self.things.fact(number);
        let word = if value { "yes" } else { "no" };
        let because = self.near.said(number).and_then(|told| self.whence(told));
        match because {
            Some(because) => format!("{fact}: {word}, {because}"),
            None => format!("{fact}: {word}"),
        }
    }

    fn whence(&self, told: &Said) -> Option<String> {
        match told {
            Said::Observed(pairs) => {
                let papers = pairs.iter().map(|(_, evidence)| self.names.of("evidence", *evidence));
                Some(format!("by {}", listed(papers)))
            }
            Said::Default { actor, citation, .. } => {
                let (actor, citation) =
                    (self.names.of("actor", *actor), self.names.of("citation", *citation));
                Some(format!("by default, as {actor} has not said otherwise ({citation})"))
            }
            Said::Silence { family, evidence } => {
                let (family, paper) =
                    (self.names.of("family", *family), self.names.of("evidence", *evidence));
                Some(format!("as the register of {family} is complete ({paper}) and silent on it"))
            }
            _ => None,
        }
    }
}
