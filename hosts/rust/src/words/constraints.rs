//! The constraints of a case, in words.

use crate::names::listed;
use crate::near::{Bound, Why};
use crate::words::Telling;

impl Telling<'_> {
    /// A constraint with the facts that it uses and what is told of them.
    pub(crate) fn constraint(&self, number: u8) -> String {
        let uses = |why: &Why| *why == Why::Constraint(number);
        let facts = self.near.touching().filter(|touching| touching.why.iter().any(uses));
        let facts: Vec<String> = facts.map(|touching| self.answer(touching.fact)).collect();
        match (facts.is_empty(), self.never(number)) {
            (true, true) => format!("Constraint {number} can never hold, by the plan."),
            (true, false) => format!("Constraint {number} always holds, by the plan."),
            (false, _) => format!("Constraint {number} uses {}.", listed(facts)),
        }
    }

    /// Whether the condition of a constraint is false whatever is open.
    fn never(&self, number: u8) -> bool {
        let node = self.near.case().constraints.get(usize::from(number));
        node.is_some_and(|node| self.is_false(*node))
    }

    fn answer(&self, fact: u8) -> String {
        match self.near.said(fact).map(|told| told.bound()) {
            Some(Bound::Known(value)) => self.known(fact, value),
            _ => self.variable(crate::near::Variable::Fact(fact)),
        }
    }
}
