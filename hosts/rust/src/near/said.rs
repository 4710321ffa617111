//! What a case says of a fact, and how that binds it.

use std::collections::BTreeSet;

use crate::case_records::{CaseRecords, FamilyRecord};
use crate::plan::Plan;
use crate::records::{Election, Fact, Policy};

/// What is said of a fact that a rule or a constraint uses.
#[derive(Clone, Debug, PartialEq, Eq)]
pub enum Said {
    /// Said outright to be unknown, by this evidence.
    Unknown { evidence: u8 },
    /// Values with their evidence, each pair once.
    Observed(BTreeSet<(bool, u8)>),
    /// Nothing is said, and the election gives a default.
    Default { value: bool, actor: u8, citation: u8 },
    /// Nothing is said of the relation, and its family is complete by this evidence.
    Silence { family: u8, evidence: u8 },
    /// Something is said of the relation, but its family is of another scope than the roster.
    OtherScope { family: u8 },
    /// Nothing is said. Whether the case has the relation's family is no part of it: that can hang on what is said of strangers.
    Nothing,
}

/// How a fact is bound.
#[derive(Clone, Copy, Debug, PartialEq, Eq)]
pub enum Bound {
    Known(bool),
    /// Unknown, or a conflict, with the values that it can have.
    Open {
        no: bool,
        yes: bool,
    },
}

impl Said {
    pub fn bound(&self) -> Bound {
        match self {
            Said::Observed(pairs) => observed(pairs),
            Said::Default { value, .. } => Bound::Known(*value),
            Said::Silence { .. } => Bound::Known(false),
            _ => Bound::Open { no: true, yes: true },
        }
    }
}

/// One pair of value and evidence is known; several are a conflict, also where the values agree.
fn observed(pairs: &BTreeSet<(bool, u8)>) -> Bound {
    let has = |wanted: bool| pairs.iter().any(|(value, _)| *value == wanted);
    match pairs.first() {
        Some((value, _)) if pairs.len() == 1 => Bound::Known(*value),
        _ => Bound::Open { no: has(false), yes: has(true) },
    }
}

/// What the case says of the fact of this number.
pub(crate) fn said(plan: &Plan, case: &CaseRecords, fact: u8) -> Said {
    match plan.fact(fact) {
        Some((_, Fact::Relation { family, .. })) => relation(case, fact, *family),
        _ => boolean(plan, case, fact),
    }
}

fn boolean(plan: &Plan, case: &CaseRecords, fact: u8) -> Said {
    let record = case.booleans.iter().find(|record| record.fact == fact);
    let unknown = record.and_then(|record| record.unknown);
    let pairs: BTreeSet<(bool, u8)> =
        record.map(|record| record.observations.iter().copied().collect()).unwrap_or_default();
    if let Some(evidence) = unknown {
        return Said::Unknown { evidence };
    }
    if !pairs.is_empty() {
        return Said::Observed(pairs);
    }
    match election(plan, fact).map(|election| (election, election.policy)) {
        Some((election, Policy::DefaultFalse)) => default(election, false),
        Some((election, Policy::DefaultTrue)) => default(election, true),
        _ => Said::Nothing,
    }
}

/// All elections on a fact are equal.
fn election(plan: &Plan, fact: u8) -> Option<&Election> {
    plan.records().elections().find(|election| plan.fact_number(election.fact) == Some(fact))
}

fn default(election: &Election, value: bool) -> Said {
    Said::Default { value, actor: election.actor.0, citation: election.citation.0 }
}

fn relation(case: &CaseRecords, fact: u8, family: u8) -> Said {
    let records = case.relations.iter().filter(|record| record.fact == fact);
    let pairs: BTreeSet<(bool, u8)> =
        records.map(|record| (record.value, record.evidence)).collect();
    let record = case.families.iter().find(|record| record.number == family);
    let in_scope = record.filter(|record| record.scope == case.scope);
    match (in_scope, pairs.is_empty()) {
        (Some(_), false) => Said::Observed(pairs),
        (None, false) => Said::OtherScope { family },
        (Some(FamilyRecord { complete: Some(evidence), .. }), true) => {
            Said::Silence { family, evidence: *evidence }
        }
        (_, true) => Said::Nothing,
    }
}
