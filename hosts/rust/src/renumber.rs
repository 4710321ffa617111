//! The handles within a plan's records get the numbers that the file has.

use crate::handles::{BooleanId, FactId, Given, Handle, Handles, NodeId};
use crate::records::{Election, Node, Records};

/// The numbers of a plan's things: those of facts by their order in the file, all others by the places of their records.
struct Numbers<'a> {
    handles: &'a Handles,
    facts: &'a [u8],
}

/// Sets the number of every handle in the records.
pub(crate) fn renumber(records: &mut Records, handles: &Handles, facts: &[u8]) {
    let numbers = Numbers { handles, facts };
    records.nodes.iter_mut().for_each(|node| numbers.node(node));
    for edge in &mut records.edges {
        edge.condition = numbers.condition(edge.condition);
        edge.defeaters.iter_mut().for_each(|node| *node = numbers.condition(*node));
    }
    for cut in &mut records.cuts {
        cut.condition = numbers.condition(cut.condition);
        cut.election = cut.election.map(|election| numbers.election(election));
        cut.decisions.iter_mut().for_each(|(edge, _)| *edge = placed(&handles.edges, *edge));
        cut.precedes.iter_mut().for_each(|other| *other = placed(&handles.cuts, *other));
    }
    for rule in &mut records.attachments {
        rule.condition = numbers.condition(rule.condition);
        rule.election = rule.election.map(|election| numbers.election(election));
    }
    records.bars.iter_mut().for_each(|bar| bar.condition = numbers.condition(bar.condition));
    let statuses = records.statuses.iter_mut();
    statuses.for_each(|status| status.condition = numbers.condition(status.condition));
}

fn placed<H: Handle>(given: &Given, handle: H) -> H {
    given.place(handle).and_then(|place| given.at(place)).unwrap_or(handle)
}

impl Numbers<'_> {
    fn condition(&self, node: NodeId) -> NodeId {
        placed(&self.handles.nodes, node)
    }

    fn number(&self, fact: FactId) -> u8 {
        let place = self.handles.facts.place(fact);
        place.and_then(|place| self.facts.get(place).copied()).unwrap_or(fact.number)
    }

    fn node(&self, node: &mut Node) {
        match node {
            Node::Literal(_) => {}
            Node::Fact(fact) => fact.number = self.number(*fact),
            Node::And(children) | Node::Or(children) => {
                children.iter_mut().for_each(|child| *child = self.condition(*child));
            }
            Node::Not(child) => *child = self.condition(*child),
        }
    }

    fn election(&self, election: Election) -> Election {
        let number = self.number(election.fact.into());
        Election { fact: BooleanId { number, ..election.fact }, ..election }
    }
}
