//! What a builder turns away.

use std::error::Error;
use std::fmt;

use crate::handles::{BooleanId, CutId, EdgeId, NodeId};
use crate::persons::Persons;

/// Why a builder does not take what it was given. A builder that has turned something away is as it was before.
#[derive(Clone, Debug, PartialEq, Eq)]
pub enum BuildError {
    /// A number outside its range.
    OutOfRange { what: &'static str, value: usize, least: usize, most: usize },
    /// One more than there may be.
    TooMany { what: &'static str, most: usize },
    /// A handle that another plan gave, that is newer than this plan, or whose thing was removed.
    NotOfThisPlan { what: &'static str },
    /// The cut decides this edge already.
    DecidedTwice { edge: EdgeId },
    /// A cut and a Combination edge that crosses it, without a decision.
    Undecided { cut: CutId, edge: EdgeId },
    /// Another election on this fact says something else.
    ElectionsDiffer { fact: BooleanId },
    /// A node's child must have come before it.
    NotLower { node: NodeId, child: NodeId },
    /// The plan has this relation already.
    RelationTwice { family: u8, tuple: Vec<u8> },
    /// What is used cannot be removed.
    InUse { what: &'static str },
    /// What is to be taken back was not said.
    NotThere { what: &'static str },
    /// A case of another relation than the plan's.
    OtherRelation { case: u8, plan: u8 },
    /// A case needs a person.
    EmptyRoster,
    /// Persons whom rules of the plan name and whom the roster lacks.
    OffRoster { persons: Persons },
    /// The case has a record of this family already.
    FamilyTwice { family: u8 },
    /// A relation is told whose family has no record.
    NoFamily { family: u8 },
    /// Another record of the case is about the same fact.
    ToldTwice { fact: BooleanId },
    /// The fact is explicitly unknown already.
    UnknownTwice { fact: BooleanId },
    /// A fact cannot be explicitly unknown and observed.
    UnknownAndObserved { fact: BooleanId },
}

impl fmt::Display for BuildError {
    fn fmt(&self, to: &mut fmt::Formatter) -> fmt::Result {
        match self {
            BuildError::OutOfRange { what, value, least, most } => {
                write!(to, "{what} {value} is outside {least} to {most}")
            }
            BuildError::TooMany { what, most } => write!(to, "more than {most} {what}"),
            BuildError::NotOfThisPlan { what } => write!(to, "this {what} is not of this plan"),
            BuildError::DecidedTwice { edge } => {
                write!(to, "edge {} is decided already in this cut", edge.number)
            }
            BuildError::Undecided { cut, edge } => write!(
                to,
                "Combination edge {} crosses cut {} and the cut does not decide it",
                edge.number, cut.number
            ),
            BuildError::ElectionsDiffer { fact } => {
                write!(to, "another election on boolean fact {} says something else", fact.number)
            }
            BuildError::NotLower { node, child } => write!(
                to,
                "node {} cannot use node {}, which does not come before it",
                node.number, child.number
            ),
            BuildError::RelationTwice { family, tuple } => {
                write!(
                    to,
                    "the plan has the relation of family {family} and persons {tuple:?} already"
                )
            }
            BuildError::InUse { what } => {
                write!(to, "this {what} is used: change or remove first what uses it")
            }
            BuildError::NotThere { what } => write!(to, "there is no such {what} to take back"),
            of_a_case => of_a_case.tell_case(to),
        }
    }
}

impl BuildError {
    /// What builders of cases turn away.
    fn tell_case(&self, to: &mut fmt::Formatter) -> fmt::Result {
        match self {
            BuildError::OtherRelation { case, plan } => {
                write!(to, "the relation of the case is {case}, that of the plan is {plan}")
            }
            BuildError::EmptyRoster => write!(to, "the roster is empty"),
            BuildError::OffRoster { persons } => {
                write!(to, "rules of the plan name persons who are not on the roster: {persons}")
            }
            BuildError::FamilyTwice { family } => {
                write!(to, "family {family} has a record already")
            }
            BuildError::NoFamily { family } => {
                write!(to, "a relation of family {family} is told, but the family has no record")
            }
            BuildError::ToldTwice { fact } => {
                write!(to, "two records of the case are about boolean fact {}", fact.number)
            }
            BuildError::UnknownTwice { fact } => {
                write!(to, "boolean fact {} is explicitly unknown already", fact.number)
            }
            BuildError::UnknownAndObserved { fact } => {
                write!(to, "boolean fact {} cannot be unknown and observed", fact.number)
            }
            _ => Ok(()),
        }
    }
}

impl Error for BuildError {}

/// The number, if it is in its range.
pub(crate) fn within(what: &'static str, value: u8, least: u8, most: u8) -> Result<u8, BuildError> {
    if (least..=most).contains(&value) {
        return Ok(value);
    }
    let [value, least, most] = [value, least, most].map(usize::from);
    Err(BuildError::OutOfRange { what, value, least, most })
}

/// Nothing, if there is no more than there may be.
pub(crate) fn at_most(what: &'static str, count: usize, most: usize) -> Result<(), BuildError> {
    if count <= most { Ok(()) } else { Err(BuildError::TooMany { what, most }) }
}
