//! Which facts touch whom, and by what: document 01's influence rule before closing, for facts that are known and facts that are not.

use crate::case_records::CaseRecords;
use crate::conditions::Conditions;
use crate::persons::Persons;
use crate::plan::Plan;
use crate::records::Fact;
use crate::rules::{Rule, RuleOf, rules};

/// Why a fact touches somebody.
#[derive(Clone, Copy, Debug, PartialEq, Eq)]
pub enum Why {
    /// The fact itself names these persons.
    Names(Persons),
    /// A rule that names these persons asks it.
    Asked(Rule, Persons),
    /// The case's constraint of this number uses it, and so it touches the whole roster.
    Constraint(u8),
}

/// A bound fact: one that a rule or a constraint uses.
#[derive(Clone, Debug, PartialEq, Eq)]
pub struct Touching {
    /// Its number in the plan's file.
    pub fact: u8,
    /// Everyone whom it touches.
    pub persons: Persons,
    pub why: Vec<Why>,
}

/// What touches by a plan, a roster and the constraints of a case.
pub(crate) struct Touch<'a> {
    plan: &'a Plan,
    roster: Persons,
    constraints: &'a [u8],
    conditions: Conditions,
}

impl<'a> Touch<'a> {
    pub(crate) fn of(plan: &'a Plan, roster: Persons, constraints: &'a [u8]) -> Touch<'a> {
        Touch { plan, roster, constraints, conditions: Conditions::of(plan) }
    }

    fn uses(&self, node: u8, fact: u8) -> bool {
        self.conditions.facts_of([node]) >> fact & 1 == 1
    }

    fn asks(&self, rule: &RuleOf, fact: u8) -> bool {
        rule.nodes().any(|node| self.uses(node.number, fact))
    }

    /// Every bound fact, rising.
    pub(crate) fn facts(&self) -> Vec<Touching> {
        let count = self.plan.records().facts.len();
        (0..64).take(count).filter_map(|fact| self.fact(fact)).collect()
    }

    /// None for a fact that nothing uses.
    fn fact(&self, fact: u8) -> Option<Touching> {
        let asking = rules(self.plan.records()).filter(|rule| self.asks(rule, fact));
        let mut why: Vec<Why> = asking.map(|rule| Why::Asked(rule.rule, rule.persons)).collect();
        let constraints = self.constraints.iter().zip(0..);
        let using = constraints.filter(|(node, _)| self.uses(**node, fact));
        why.extend(using.map(|(_, number)| Why::Constraint(number)));
        if why.is_empty() {
            return None;
        }
        if let Some((_, Fact::Relation { tuple, .. })) = self.plan.fact(fact) {
            why.insert(0, Why::Names(Persons::of(tuple).unwrap_or(Persons::NOBODY)));
        }
        let persons = why.iter().fold(Persons::NOBODY, |all, why| all.union(self.whom(*why)));
        Some(Touching { fact, persons, why })
    }

    fn whom(&self, why: Why) -> Persons {
        match why {
            Why::Names(persons) | Why::Asked(_, persons) => persons,
            Why::Constraint(_) => self.roster,
        }
    }
}

/// Each bound fact that touches somebody of a circle, by what the case's heading and constraints say.
pub fn touching(plan: &Plan, case: &CaseRecords, circle: Persons) -> Vec<Touching> {
    let facts = Touch::of(plan, case.roster, &case.constraints).facts();
    facts.into_iter().filter(|fact| fact.persons.meets(circle)).collect()
}
