//! What is open in a circle: facts without one answer, and decisions that nobody has taken.

use crate::case_records::{BooleanRecord, CaseRecords};
use crate::line::Line;
use crate::near::kept::Kept;
use crate::near::said::Bound;
use crate::plan::Plan;
use crate::records::{Decision, Fact, Node, Records};

/// An open fact, by its number in the plan's file, or an unresolved decision, by its place among those of the whole plan.
#[derive(Clone, Copy, Debug, PartialEq, Eq, Hash, PartialOrd, Ord)]
pub enum Variable {
    Fact(u8),
    Decision(u8),
}

/// The variables of a circle in document 01's order, each with the values that it can have.
#[derive(Clone, Debug)]
pub(crate) struct Open {
    variables: Vec<Variable>,
    candidates: Vec<Vec<bool>>,
    /// How many of the variables are boolean facts; these come first.
    booleans: usize,
    /// The places of the circle's decisions among all of the plan's.
    decisions: Vec<u8>,
}

fn candidates(bound: Bound) -> Option<Vec<bool>> {
    match bound {
        Bound::Known(_) => None,
        Bound::Open { no, yes } => Some(
            [(no, false), (yes, true)]
                .iter()
                .filter(|(can, _)| *can)
                .map(|(_, value)| *value)
                .collect(),
        ),
    }
}

impl Open {
    pub(crate) fn of(kept: &Kept) -> Open {
        let is_boolean =
            |fact: u8| kept.plan.fact(fact).is_some_and(|(_, fact)| *fact == Fact::Boolean);
        let facts = |boolean: bool| {
            let facts = kept.facts.iter().map(|(touching, said)| (touching.fact, said.bound()));
            let sort = facts.filter(move |(fact, _)| is_boolean(*fact) == boolean);
            sort.filter_map(|(fact, bound)| Some((Variable::Fact(fact), candidates(bound)?)))
        };
        let decisions =
            kept.decisions.iter().map(|place| (Variable::Decision(*place), vec![false, true]));
        let all = facts(true).chain(decisions).chain(facts(false));
        let (variables, candidates) = all.unzip();
        let booleans = facts(true).count();
        Open { variables, candidates, booleans, decisions: kept.decisions.clone() }
    }

    pub(crate) fn variables(&self) -> &[Variable] {
        &self.variables
    }

    pub(crate) fn candidates(&self) -> &[Vec<bool>] {
        &self.candidates
    }

    pub(crate) fn booleans(&self) -> usize {
        self.booleans
    }

    /// The case in which the open boolean facts have these values, each told by two papers: such a fact is open still and has its influence, but
    /// one value alone, so that few worlds are left to be gone through.
    pub(crate) fn chosen(&self, case: &CaseRecords, values: &[bool]) -> CaseRecords {
        let mut chosen = case.clone();
        for (variable, value) in self.variables.iter().zip(values).take(self.booleans) {
            if let Variable::Fact(fact) = *variable {
                chosen.booleans.retain(|record| record.fact != fact);
                let observations = vec![(*value, 0), (*value, 1)];
                chosen.booleans.push(BooleanRecord { fact, unknown: None, observations });
            }
        }
        chosen
    }

    /// A line of the circle's plan with its open decisions numbered as in the whole plan.
    pub(crate) fn whole_line(&self, line: &Line) -> Line {
        line.with_open_decisions(
            line.open_decisions()
                .filter_map(|place| self.decisions.get(usize::from(place)).copied()),
        )
    }

    /// Gives a variable one value in the plan's records: it is no variable there.
    pub(crate) fn settle(
        &self,
        plan: &Plan,
        records: &mut Records,
        variable: Variable,
        value: bool,
    ) {
        match variable {
            Variable::Fact(number) => {
                let is = |node: &Node| matches!(node, Node::Fact(fact) if plan.fact_number(*fact) == Some(number));
                let nodes = records.nodes.iter_mut().filter(|node| is(node));
                nodes.for_each(|node| *node = Node::Literal(value));
            }
            Variable::Decision(place) => self.decide(plan, records, place, value),
        }
    }

    /// Where a decision stands among the circle's.
    pub(crate) fn decision_at(&self, place: u8) -> Option<usize> {
        self.decisions.iter().position(|own| *own == place)
    }

    fn decide(&self, plan: &Plan, records: &mut Records, place: u8, value: bool) {
        let at = self.decision_at(place);
        let Some((cut, edge)) = at.and_then(|at| plan.decisions().get(at).copied()) else {
            return;
        };
        let said = if value { Decision::Overrides } else { Decision::Blocked };
        let cut = records.cuts.get_mut(usize::from(cut.number));
        let entries = cut.map(|cut| cut.decisions.iter_mut()).into_iter().flatten();
        entries.filter(|(decided, _)| *decided == edge).for_each(|(_, old)| *old = said);
    }
}
