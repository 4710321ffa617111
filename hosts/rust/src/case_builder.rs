//! Makes a case from named things.

use crate::build_error::{BuildError, at_most, within};
use crate::case::Case;
use crate::case_records::CaseRecords;
use crate::handles::{BooleanId, NodeId, RelationId};
use crate::limits;
use crate::numbers::Paper;
use crate::persons::Persons;
use crate::plan::Plan;
use crate::write::{write_boolean, write_constraint, write_family, write_relation};

/// Which group of people in which period a case is about: the office's numbers for them, 1 to 255.
#[derive(Clone, Copy, Debug, PartialEq, Eq, Hash)]
pub struct Frame {
    /// The group of people.
    pub scope: u8,
    /// The period.
    pub segment: u8,
}

/// A family of relations, as the case knows it.
#[derive(Clone, Copy, Debug, PartialEq, Eq)]
pub struct Family {
    pub(crate) number: u8,
    pub(crate) scope: Option<u8>,
    pub(crate) complete: Option<Paper>,
}

impl Family {
    /// A family in the scope that the case has when it is told, and not complete.
    pub fn new(number: u8) -> Family {
        Family { number, scope: None, complete: None }
    }

    /// In this scope; facts of a family in another scope than the roster's are unknown.
    pub fn scope(self, scope: u8) -> Family {
        Family { scope: Some(scope), ..self }
    }

    /// Complete by this paper: what is not told of it is false.
    pub fn complete(self, paper: Paper) -> Family {
        Family { complete: Some(paper), ..self }
    }
}

/// What is said of a boolean fact.
#[derive(Clone, Debug)]
pub(crate) struct Boolean {
    pub(crate) fact: BooleanId,
    pub(crate) unknown: Option<Paper>,
    pub(crate) observations: Vec<(bool, Paper)>,
}

/// A case in the making, over a plan: from nothing, or from a case that is there. An answer to a finished case refuses nothing up to 10, but 8
/// where the segment is said to be incomplete: only too many worlds or short buffers are left.
#[derive(Clone, Debug)]
pub struct CaseBuilder<'a> {
    pub(crate) plan: &'a Plan,
    pub(crate) frame: Frame,
    pub(crate) segment_complete: bool,
    pub(crate) roster: Persons,
    pub(crate) complete: Option<Paper>,
    pub(crate) most_worlds: u16,
    pub(crate) families: Vec<Family>,
    pub(crate) booleans: Vec<Boolean>,
    pub(crate) relations: Vec<(RelationId, bool, Paper)>,
    pub(crate) constraints: Vec<NodeId>,
}

impl<'a> CaseBuilder<'a> {
    /// A case of this roster. Its segment is complete: nothing changes within it. The roster is not complete until
    /// [`roster_complete`](CaseBuilder::roster_complete) says so; 4,096 worlds are allowed.
    pub fn new(
        plan: &'a Plan,
        frame: Frame,
        roster: Persons,
    ) -> Result<CaseBuilder<'a>, BuildError> {
        framed(frame)?;
        fitting(plan, roster)?;
        Ok(CaseBuilder {
            plan,
            frame,
            segment_complete: true,
            roster,
            complete: None,
            most_worlds: limits::WORLDS,
            families: Vec::new(),
            booleans: Vec::new(),
            relations: Vec::new(),
            constraints: Vec::new(),
        })
    }

    /// The roster is complete by this paper. Of an incomplete one nothing is decided.
    pub fn roster_complete(&mut self, paper: Paper) -> Result<(), BuildError> {
        self.complete = Some(proven(paper)?);
        Ok(())
    }

    /// The segment is not complete, something changes within it: an answer will be refused with 8.
    pub fn segment_incomplete(&mut self) {
        self.segment_complete = false;
    }

    /// No more worlds than these, 0 to 4,096.
    pub fn most_worlds(&mut self, most: u16) -> Result<(), BuildError> {
        if most > limits::WORLDS {
            let [value, most] = [most, limits::WORLDS].map(usize::from);
            return Err(BuildError::OutOfRange { what: "most worlds", value, least: 0, most });
        }
        self.most_worlds = most;
        Ok(())
    }

    /// A family; each once. Families are told before or after their relations.
    pub fn family(&mut self, family: Family) -> Result<(), BuildError> {
        let scope = Some(family.scope.unwrap_or(self.frame.scope));
        self.add_family(Family { scope, ..family })
    }

    /// A family whose scope, if there is none, is left out.
    pub(crate) fn add_family(&mut self, family: Family) -> Result<(), BuildError> {
        family.complete.map_or(Ok(()), |paper| proven(paper).map(drop))?;
        if self.has_family(family.number) {
            return Err(BuildError::FamilyTwice { family: family.number });
        }
        at_most("families", self.families.len() + 1, limits::FAMILIES)?;
        self.families.push(family);
        Ok(())
    }

    /// A boolean fact is explicitly unknown: no default stands in for it.
    pub fn unknown(&mut self, fact: BooleanId, paper: Paper) -> Result<(), BuildError> {
        proven(paper)?;
        let boolean = self.boolean(fact)?;
        let fact = boolean.fact;
        if boolean.unknown.is_some() {
            return Err(BuildError::UnknownTwice { fact });
        }
        if !boolean.observations.is_empty() {
            return Err(BuildError::UnknownAndObserved { fact });
        }
        boolean.unknown = Some(paper);
        Ok(())
    }

    /// A boolean fact has been observed; several observations that are not all alike are a conflict.
    pub fn observe(
        &mut self,
        fact: BooleanId,
        value: bool,
        paper: Paper,
    ) -> Result<(), BuildError> {
        proven(paper)?;
        let boolean = self.boolean(fact)?;
        if boolean.unknown.is_some() {
            return Err(BuildError::UnknownAndObserved { fact: boolean.fact });
        }
        let count = boolean.observations.len() + 1;
        at_most("observations of a fact", count, limits::OBSERVATIONS)?;
        boolean.observations.push((value, paper));
        Ok(())
    }

    /// A relation has been observed; its family needs a record.
    pub fn relate(
        &mut self,
        fact: RelationId,
        value: bool,
        paper: Paper,
    ) -> Result<(), BuildError> {
        proven(paper)?;
        if self.plan.family_of(fact).is_none() {
            return Err(BuildError::NotOfThisPlan { what: "fact" });
        }
        at_most("relations", self.relations.len() + 1, limits::RELATIONS)?;
        self.relations.push((fact, value, paper));
        Ok(())
    }

    /// Only worlds in which this condition holds are admissible.
    pub fn constrain(&mut self, node: NodeId) -> Result<(), BuildError> {
        self.node_number(node)?;
        at_most("constraints", self.constraints.len() + 1, limits::CONSTRAINTS)?;
        self.constraints.push(node);
        Ok(())
    }

    /// The case as it stands, with its bytes; the builder can go on.
    pub fn finish(&self) -> Result<Case, BuildError> {
        let mut bytes = Vec::new();
        self.heading().write_heading().finish(&mut bytes);
        for family in &self.families {
            let complete = family.complete.map(|paper| paper.0);
            write_family(family.number, family.scope, complete).finish(&mut bytes);
        }
        for boolean in &self.booleans {
            let told: Vec<(bool, u8)> =
                boolean.observations.iter().map(|&(value, paper)| (value, paper.0)).collect();
            let (number, unknown) = (self.fact_number(boolean.fact)?, boolean.unknown);
            write_boolean(number, unknown.map(|paper| paper.0), &told).finish(&mut bytes);
        }
        for &(fact, value, paper) in &self.relations {
            self.family_told(fact)?;
            write_relation(self.fact_number(fact)?, value, paper.0).finish(&mut bytes);
        }
        for &node in &self.constraints {
            write_constraint(self.node_number(node)?).finish(&mut bytes);
        }
        Ok(Case::of(bytes))
    }

    /// The heading alone.
    fn heading(&self) -> CaseRecords {
        CaseRecords {
            relation: self.plan.records().relation,
            scope: self.frame.scope,
            segment: self.frame.segment,
            segment_complete: self.segment_complete,
            roster: self.roster,
            complete: self.complete.map(|paper| paper.0),
            most_worlds: self.most_worlds,
            ..CaseRecords::default()
        }
    }

    pub(crate) fn fact_number(&self, fact: impl Into<crate::FactId>) -> Result<u8, BuildError> {
        self.plan.fact_number(fact).ok_or(BuildError::NotOfThisPlan { what: "fact" })
    }

    pub(crate) fn node_number(&self, node: NodeId) -> Result<u8, BuildError> {
        self.plan.node_number(node).ok_or(BuildError::NotOfThisPlan { what: "node" })
    }

    fn has_family(&self, number: u8) -> bool {
        self.families.iter().any(|family| family.number == number)
    }

    fn family_told(&self, fact: RelationId) -> Result<(), BuildError> {
        match self.plan.family_of(fact) {
            None => Err(BuildError::NotOfThisPlan { what: "fact" }),
            Some(family) if self.has_family(family) => Ok(()),
            Some(family) => Err(BuildError::NoFamily { family }),
        }
    }

    /// What is said of this fact, begun if nothing was. There is room: a plan has no more facts than a case has boolean records.
    fn boolean(&mut self, fact: BooleanId) -> Result<&mut Boolean, BuildError> {
        let number = self.fact_number(fact)?;
        let fact = BooleanId { number, ..fact };
        let there = self.booleans.iter().position(|boolean| boolean.fact == fact);
        let at = there.unwrap_or(self.booleans.len());
        if there.is_none() {
            self.booleans.push(Boolean { fact, unknown: None, observations: Vec::new() });
        }
        self.booleans.get_mut(at).ok_or(BuildError::NotOfThisPlan { what: "fact" })
    }
}

pub(crate) fn framed(frame: Frame) -> Result<Frame, BuildError> {
    within("scope", frame.scope, 1, 255)?;
    within("segment", frame.segment, 1, 255)?;
    Ok(frame)
}

/// A roster needs somebody, and everyone whom a rule of the plan names.
pub(crate) fn fitting(plan: &Plan, roster: Persons) -> Result<Persons, BuildError> {
    if roster.is_empty() {
        return Err(BuildError::EmptyRoster);
    }
    let persons = plan.records().rule_persons().without(roster);
    if !persons.is_empty() {
        return Err(BuildError::OffRoster { persons });
    }
    Ok(roster)
}

fn proven(paper: Paper) -> Result<Paper, BuildError> {
    within("evidence", paper.0, 0, limits::CITATION).map(Paper)
}
