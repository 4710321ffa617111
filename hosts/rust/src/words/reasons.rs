//! Why a rule does not hold.

use std::collections::BTreeSet;

use crate::handles::NodeId;
use crate::names::listed;
use crate::near::Bound;
use crate::records::Node;
use crate::rules::{Rule, rules};
use crate::words::Telling;

/// Facts, with their values, that make a node have its value.
type Causes = BTreeSet<(u8, bool)>;

/// The one value that a fact can have, also by papers that are in conflict and all say the same.
fn only(bound: Bound) -> Option<bool> {
    match bound {
        Bound::Known(value) => Some(value),
        Bound::Open { no: true, yes: false } => Some(false),
        Bound::Open { no: false, yes: true } => Some(true),
        Bound::Open { .. } => None,
    }
}

fn of(all: &[[Option<Causes>; 2]], node: NodeId, wanted: bool) -> Option<Causes> {
    let [no, yes] = all.get(usize::from(node.number))?;
    if wanted { yes.clone() } else { no.clone() }
}

fn all(children: &[NodeId], of: impl Fn(&NodeId) -> Option<Causes>) -> Option<Causes> {
    let causes: Option<Vec<Causes>> = children.iter().map(of).collect();
    Some(causes?.into_iter().flatten().collect())
}

impl Telling<'_> {
    /// For each node the facts of one value that make it false, and those that make it true, whatever is open; none where they do not. Node by node,
    /// each once: a condition can use the one below it twice, and that one the next.
    fn causes(&self) -> Vec<[Option<Causes>; 2]> {
        let mut all: Vec<[Option<Causes>; 2]> = Vec::new();
        for node in &self.near.plan().records().nodes {
            let of = |child: &NodeId, wanted: bool| of(&all, *child, wanted);
            let causes = [false, true].map(|wanted| self.cause(node, wanted, of));
            all.push(causes);
        }
        all
    }

    fn cause(
        &self,
        node: &Node,
        wanted: bool,
        of: impl Fn(&NodeId, bool) -> Option<Causes>,
    ) -> Option<Causes> {
        match node {
            Node::Literal(value) => (*value == wanted).then(Causes::new),
            Node::Fact(fact) => {
                let number = self.near.plan().fact_number(*fact)?;
                let bound = self.near.said(number)?.bound();
                (only(bound) == Some(wanted)).then(|| Causes::from([(number, wanted)]))
            }
            Node::Not(child) => of(child, !wanted),
            Node::And(children) if wanted => all(children, |child| of(child, wanted)),
            Node::Or(children) if !wanted => all(children, |child| of(child, wanted)),
            Node::And(children) | Node::Or(children) => {
                children.iter().find_map(|child| of(child, wanted))
            }
        }
    }

    /// Whether a node is false whatever is open.
    pub(crate) fn is_false(&self, node: u8) -> bool {
        self.causes().get(usize::from(node)).is_some_and(|[no, _]| no.is_some())
    }

    fn in_words(&self, causes: &Causes) -> Option<String> {
        let facts = causes.iter().map(|(fact, value)| self.known(*fact, *value));
        (!causes.is_empty()).then(|| listed(facts))
    }

    /// Condition and defeaters of a rule.
    fn asked(&self, rule: Rule) -> Option<(NodeId, Vec<NodeId>)> {
        let records = self.near.plan().records();
        let found = rules(records).find(|found| found.rule == rule)?;
        Some((found.condition, found.defeaters.to_vec()))
    }

    /// Whether a rule's condition holds and no defeater does, in each world.
    pub(crate) fn holding(&self, rule: Rule) -> Vec<bool> {
        let Some((condition, defeaters)) = self.asked(rule) else {
            return Vec::new();
        };
        let worlds = self.near.worlds().iter();
        let in_world = worlds.map(|world| {
            let is = |node: &NodeId| world.nodes.get(usize::from(node.number)) == Some(&true);
            is(&condition) && !defeaters.iter().any(is)
        });
        in_world.collect()
    }

    /// Why a rule holds in no world.
    pub(crate) fn why_not(&self, rule: Rule) -> String {
        let Some((condition, defeaters)) = self.asked(rule) else {
            return String::new();
        };
        let all = self.causes();
        if let Some(causes) = of(&all, condition, false) {
            return self
                .in_words(&causes)
                .unwrap_or_else(|| "by the plan it never does".to_string());
        }
        match defeaters.iter().find_map(|defeater| of(&all, *defeater, true)) {
            Some(causes) => {
                let always = || "by the plan it always is".to_string();
                format!("it is defeated; {}", self.in_words(&causes).unwrap_or_else(always))
            }
            None => "whatever the open answers are, something stands against it".to_string(),
        }
    }
}
