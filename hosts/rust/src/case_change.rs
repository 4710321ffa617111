//! Opens a case again and changes what it says.

use std::error::Error;
use std::fmt;

use crate::build_error::BuildError;
use crate::case_builder::{Boolean, CaseBuilder, Family, Frame, fitting, framed};
use crate::case_records::{BooleanRecord, CaseRecords};
use crate::foreign;
use crate::handles::{BooleanId, FactId, NodeId, RelationId};
use crate::numbers::Paper;
use crate::persons::Persons;
use crate::plan::Plan;
use crate::read::{File, Reader};
use crate::refusal::{Reason, Refusal};

/// Why a case cannot be opened again.
#[derive(Clone, Debug, PartialEq, Eq)]
pub enum ReopenError {
    /// The bytes are refused over this plan.
    Refused(Refusal),
    /// A builder does not take what they say.
    NotTaken(BuildError),
}

impl fmt::Display for ReopenError {
    fn fmt(&self, to: &mut fmt::Formatter) -> fmt::Result {
        match self {
            ReopenError::Refused(refusal) => write!(to, "{refusal}"),
            ReopenError::NotTaken(error) => write!(to, "{error}"),
        }
    }
}

impl Error for ReopenError {}

impl From<BuildError> for ReopenError {
    fn from(error: BuildError) -> ReopenError {
        ReopenError::NotTaken(error)
    }
}

impl<'a> CaseBuilder<'a> {
    /// A case to be changed, over the plan that it was written for. Finished without a change it means the same. A case with too many worlds or
    /// an incomplete segment can be opened, too: it is what a change may mend.
    pub fn reopen(plan: &'a Plan, bytes: &[u8]) -> Result<CaseBuilder<'a>, ReopenError> {
        accepted(plan, bytes)?;
        // It never comes: a case that passes its checks can be read.
        let unreadable = Refusal::nowhere(Reason::Other(0));
        let records = CaseRecords::read(bytes).ok_or(ReopenError::Refused(unreadable))?;
        let (case, wanted) = (records.relation, plan.records().relation);
        if case != wanted {
            return Err(BuildError::OtherRelation { case, plan: wanted }.into());
        }
        let frame = Frame { scope: records.scope, segment: records.segment };
        let mut builder = CaseBuilder::new(plan, frame, records.roster)?;
        builder.segment_complete = records.segment_complete;
        records.complete.map_or(Ok(()), |paper| builder.roster_complete(Paper(paper)))?;
        builder.most_worlds(records.most_worlds)?;
        builder.take_families(bytes)?;
        builder.take_facts(&records)?;
        Ok(builder)
    }

    /// A scope that is left out stays left out.
    fn take_families(&mut self, bytes: &[u8]) -> Result<(), BuildError> {
        let records = Reader::new(File::Case, bytes).filter(|record| record.kind == 2);
        for record in records {
            let number = record.byte(0).unwrap_or(0);
            let complete = record.byte(2).map(Paper);
            self.add_family(Family { number, scope: record.byte(1), complete })?;
        }
        Ok(())
    }

    fn take_facts(&mut self, records: &CaseRecords) -> Result<(), BuildError> {
        records.booleans.iter().try_for_each(|record| self.take_boolean(record))?;
        let strange = |what| BuildError::NotOfThisPlan { what };
        for record in &records.relations {
            let fact = self.plan.relation(record.fact).ok_or(strange("fact"))?;
            self.relate(fact, record.value, Paper(record.evidence))?;
        }
        for &number in &records.constraints {
            self.constrain(self.plan.node(number).ok_or(strange("node"))?)?;
        }
        Ok(())
    }

    fn take_boolean(&mut self, record: &BooleanRecord) -> Result<(), BuildError> {
        let fact = self.plan.boolean(record.fact);
        let fact = fact.ok_or(BuildError::NotOfThisPlan { what: "fact" })?;
        if self.booleans.iter().any(|boolean| boolean.fact == fact) {
            return Err(BuildError::ToldTwice { fact });
        }
        self.booleans.push(Boolean { fact, unknown: None, observations: Vec::new() });
        record.unknown.map_or(Ok(()), |paper| self.unknown(fact, Paper(paper)))?;
        let mut observations = record.observations.iter();
        observations.try_for_each(|&(value, paper)| self.observe(fact, value, Paper(paper)))
    }

    /// The same case over another plan and for its roster: a plan that was opened again and changed, so that facts and nodes have other numbers.
    /// Nothing is left out: what the case says of a fact that the plan lacks must be forgotten first. A roster of other persons is complete
    /// only when a paper says so of them.
    pub fn over<'b>(&self, plan: &'b Plan, roster: Persons) -> Result<CaseBuilder<'b>, BuildError> {
        let mut moved = CaseBuilder::new(plan, self.frame, roster)?;
        moved.segment_complete = self.segment_complete;
        moved.complete = self.complete.filter(|_| self.roster == roster);
        moved.most_worlds = self.most_worlds;
        moved.families.clone_from(&self.families);
        for boolean in &self.booleans {
            let number = moved.fact_number(boolean.fact)?;
            let fact = BooleanId { number, ..boolean.fact };
            moved.booleans.push(Boolean { fact, ..boolean.clone() });
        }
        let mut relations = self.relations.iter();
        relations.try_for_each(|&(fact, value, paper)| moved.relate(fact, value, paper))?;
        self.constraints.iter().try_for_each(|&node| moved.constrain(node))?;
        Ok(moved)
    }

    /// Another group of people or another period. Families keep the scope that they have.
    pub fn frame(&mut self, frame: Frame) -> Result<(), BuildError> {
        self.frame = framed(frame)?;
        Ok(())
    }

    /// Other persons. They are all only when a paper says so of them: [`roster_complete`](CaseBuilder::roster_complete).
    pub fn roster(&mut self, roster: Persons) -> Result<(), BuildError> {
        let before = std::mem::replace(&mut self.roster, fitting(self.plan, roster)?);
        self.complete = self.complete.filter(|_| before == roster);
        Ok(())
    }

    /// The roster is not complete.
    pub fn roster_incomplete(&mut self) {
        self.complete = None;
    }

    /// Nothing changes within the segment.
    pub fn segment_complete(&mut self) {
        self.segment_complete = true;
    }

    /// Another record of a family that has one.
    pub fn replace_family(&mut self, family: Family) -> Result<(), BuildError> {
        let mut changed = self.clone();
        let place = changed.families.iter().position(|other| other.number == family.number);
        let place = place.ok_or(BuildError::NotThere { what: "family" })?;
        changed.families.remove(place);
        changed.family(family)?;
        let last = changed.families.pop();
        last.into_iter().for_each(|family| changed.families.insert(place, family));
        *self = changed;
        Ok(())
    }

    /// A family has no record. Relations of it must be forgotten before the case is finished.
    pub fn remove_family(&mut self, number: u8) -> Result<(), BuildError> {
        let count = self.families.len();
        self.families.retain(|family| family.number != number);
        taken("family", count - self.families.len())
    }

    /// Nothing is said of a fact any more: neither observations nor an explicit unknown. How many of these went.
    pub fn forget(&mut self, fact: impl Into<FactId>) -> Result<usize, BuildError> {
        let fact = fact.into();
        self.fact_number(fact)?;
        let mine = |boolean: &Boolean| FactId::from(boolean.fact) == fact;
        let booleans = self.booleans.iter().filter(|boolean| mine(boolean));
        let said =
            booleans.map(|said| said.observations.len() + usize::from(said.unknown.is_some()));
        let (said, related) = (said.sum::<usize>(), self.relations.len());
        self.booleans.retain(|boolean| !mine(boolean));
        self.relations.retain(|(other, ..)| FactId::from(*other) != fact);
        Ok(said + related - self.relations.len())
    }

    /// Takes back one observation of a boolean fact: the first of this value and paper.
    pub fn withdraw(
        &mut self,
        fact: BooleanId,
        value: bool,
        paper: Paper,
    ) -> Result<(), BuildError> {
        self.fact_number(fact)?;
        let mut booleans = self.booleans.iter_mut();
        let found = booleans.find(|boolean| boolean.fact == fact).and_then(|boolean| {
            let place = boolean.observations.iter().position(|said| *said == (value, paper))?;
            Some(boolean.observations.remove(place))
        });
        let empty = |said: &Boolean| said.unknown.is_none() && said.observations.is_empty();
        self.booleans.retain(|said| said.fact != fact || !empty(said));
        taken("observation", usize::from(found.is_some()))
    }

    /// Takes back one observation of a relation: the first of this value and paper.
    pub fn unrelate(
        &mut self,
        fact: RelationId,
        value: bool,
        paper: Paper,
    ) -> Result<(), BuildError> {
        self.fact_number(fact)?;
        let place = self.relations.iter().position(|said| *said == (fact, value, paper));
        let taken_back = place.map(|place| self.relations.remove(place));
        taken("observation", usize::from(taken_back.is_some()))
    }

    /// Takes a constraint back.
    pub fn unconstrain(&mut self, node: NodeId) -> Result<(), BuildError> {
        let count = self.constraints.len();
        self.constraints.retain(|other| *other != node);
        taken("constraint", count - self.constraints.len())
    }
}

fn taken(what: &'static str, count: usize) -> Result<(), BuildError> {
    if count == 0 { Err(BuildError::NotThere { what }) } else { Ok(()) }
}

/// Asks for an answer without room for a line, so that 12 says that all checks of records passed. 8 stands before 9, whose questions the
/// builder asks, too.
fn accepted(plan: &Plan, case: &[u8]) -> Result<(), ReopenError> {
    let told = foreign::answer(plan.bytes(), case, &mut [], &mut []);
    match Refusal::told(&told, plan.bytes(), Some(case)) {
        Some(Refusal { reason: Reason::SegmentIncomplete | Reason::LinesDoNotFit, .. }) | None => {
            Ok(())
        }
        Some(refusal) => Err(ReopenError::Refused(refusal)),
    }
}
