//! Makes a plan from named things.

use crate::build_error::{BuildError, at_most, within};
use crate::handles::{
    AttachmentId, BarId, BooleanId, CutId, EdgeId, FactId, Given, Handle, Handles, NodeId,
    RelationId, StatusId,
};
use crate::limits;
use crate::numbers::{Actor, Citation};
use crate::plan::Plan;
use crate::records::{
    Attachment, Bar, Cut, Decision, Edge, Election, Fact, Node, Precedence, Records, Status,
};

/// A plan in the making, from nothing or from a plan that is there. Each call gives a handle to what it added, or says why nothing was
/// changed. Handles serve this builder, the plans that it finishes and the builders that are opened from those, until what they name is
/// removed. Facts may come in any order: the plan's bytes have them sorted. The check accepts every plan that is finished.
#[derive(Clone, Debug)]
pub struct PlanBuilder {
    pub(crate) handles: Handles,
    pub(crate) records: Records,
}

impl PlanBuilder {
    /// A plan for rosters of this relation, with nothing in it.
    pub fn new(relation: u8) -> PlanBuilder {
        PlanBuilder { handles: Handles::default(), records: Records::new(relation) }
    }

    /// A plan to be changed. Its handles serve here, too; finished without a change it means the same.
    pub fn reopen(plan: &Plan) -> PlanBuilder {
        PlanBuilder { handles: plan.handles().clone(), records: plan.records().clone() }
    }

    /// What stands so far.
    pub fn records(&self) -> &Records {
        &self.records
    }

    /// With this citation a chain of Base edges makes a block; without it the chain is left to discretion.
    pub fn base_chain(&mut self, citation: Citation) -> Result<(), BuildError> {
        self.records.chain = Some(cited(citation)?);
        Ok(())
    }

    /// A new boolean fact.
    pub fn boolean(&mut self) -> Result<BooleanId, BuildError> {
        push(
            &mut self.handles.facts,
            &mut self.records.facts,
            Fact::Boolean,
            "facts",
            limits::FACTS,
        )
    }

    /// The relation of a family between persons; the same handle again if it is there already.
    pub fn relation(&mut self, family: u8, tuple: &[u8]) -> Result<RelationId, BuildError> {
        let fact = relation(family, tuple)?;
        let there = self.records.facts.iter().position(|other| *other == fact);
        if let Some(handle) = there.and_then(|place| self.handles.facts.at(place)) {
            return Ok(handle);
        }
        push(&mut self.handles.facts, &mut self.records.facts, fact, "facts", limits::FACTS)
    }

    /// The condition that is always true, or always false.
    pub fn literal(&mut self, value: bool) -> Result<NodeId, BuildError> {
        self.node(Node::Literal(value))
    }

    /// The condition that a fact holds.
    pub fn holds(&mut self, fact: impl Into<FactId>) -> Result<NodeId, BuildError> {
        self.node(Node::Fact(fact.into()))
    }

    /// All of them hold: true for none.
    pub fn and(&mut self, children: &[NodeId]) -> Result<NodeId, BuildError> {
        self.node(Node::And(children.to_vec()))
    }

    /// One of them holds: false for none.
    pub fn or(&mut self, children: &[NodeId]) -> Result<NodeId, BuildError> {
        self.node(Node::Or(children.to_vec()))
    }

    /// It does not hold.
    pub fn not(&mut self, child: NodeId) -> Result<NodeId, BuildError> {
        self.node(Node::Not(child))
    }

    /// Any condition.
    pub fn node(&mut self, node: Node) -> Result<NodeId, BuildError> {
        self.check_node(&node)?;
        push(&mut self.handles.nodes, &mut self.records.nodes, node, "nodes", limits::NODES)
    }

    /// Two persons who belong together.
    pub fn edge(&mut self, edge: Edge) -> Result<EdgeId, BuildError> {
        self.check_edge(&edge)?;
        push(&mut self.handles.edges, &mut self.records.edges, edge, "edges", limits::EDGES)
    }

    /// Persons who are cut out. Combination edges that cross it are decided here or by [`decide`](PlanBuilder::decide).
    pub fn cut(&mut self, mut cut: Cut) -> Result<CutId, BuildError> {
        self.check_cut(&cut)?;
        drop_repeats(&mut cut.precedes);
        push(&mut self.handles.cuts, &mut self.records.cuts, cut, "cuts", limits::CUTS)
    }

    /// Decides an edge in a cut that is there; [`redecide`](PlanBuilder::redecide) decides otherwise than before.
    pub fn decide(
        &mut self,
        cut: CutId,
        edge: EdgeId,
        decision: Decision,
    ) -> Result<(), BuildError> {
        let place = self.cut_here(cut)?;
        self.decisions_here(&[(edge, decision)])?;
        let list = &mut at(&mut self.records.cuts, place)?.decisions;
        if list.iter().any(|&(other, _)| other == edge) {
            return Err(BuildError::DecidedTwice { edge: current(&self.handles.edges, edge) });
        }
        list.push((edge, decision));
        Ok(())
    }

    /// Says that a cut precedes another; nothing changes if that was said before.
    pub fn precede(&mut self, said: Precedence) -> Result<(), BuildError> {
        let place = self.cut_here(said.cut)?;
        self.cut_here(said.precedes)?;
        let list = &mut at(&mut self.records.cuts, place)?.precedes;
        if !list.contains(&said.precedes) {
            at_most("preceded cuts", list.len() + 1, limits::CHILDREN)?;
            list.push(said.precedes);
        }
        Ok(())
    }

    /// Persons who move to another's block. Attachments act in the order in which they come.
    pub fn attachment(&mut self, rule: Attachment) -> Result<AttachmentId, BuildError> {
        self.check_attachment(&rule)?;
        let (handles, list) = (&mut self.handles.attachments, &mut self.records.attachments);
        push(handles, list, rule, "attachments", limits::ATTACHMENTS)
    }

    /// Persons who are barred.
    pub fn bar(&mut self, bar: Bar) -> Result<BarId, BuildError> {
        self.check_bar(&bar)?;
        push(&mut self.handles.bars, &mut self.records.bars, bar, "bars", limits::BARS)
    }

    /// A person who is excluded.
    pub fn status(&mut self, status: Status) -> Result<StatusId, BuildError> {
        self.check_status(&status)?;
        let (handles, list) = (&mut self.handles.statuses, &mut self.records.statuses);
        push(handles, list, status, "statuses", limits::STATUSES)
    }

    /// The cuts and Combination edges that cross without a decision, by cut, then edge. Each must be decided before the plan
    /// can be finished.
    pub fn undecided(&self) -> impl Iterator<Item = (CutId, EdgeId)> {
        let cuts = self.records.cuts.iter().enumerate();
        let cuts = cuts.filter_map(|(place, cut)| Some((self.handles.cuts.at(place)?, cut)));
        cuts.flat_map(move |(id, cut): (CutId, &Cut)| {
            self.undecided_in(cut).map(move |edge| (id, edge))
        })
    }

    fn undecided_in<'a>(&'a self, cut: &'a Cut) -> impl Iterator<Item = EdgeId> + 'a {
        let edges = self.records.edges.iter().enumerate();
        edges
            .filter(|(_, edge)| edge.combination && cut.members.parts(edge.left, edge.right))
            .filter_map(|(place, _)| self.handles.edges.at(place))
            .filter(|edge| cut.decisions.iter().all(|(decided, _)| decided != edge))
    }

    /// The plan as it stands, with its bytes; the builder can go on.
    pub fn finish(&self) -> Result<Plan, BuildError> {
        match self.undecided().next() {
            Some((cut, edge)) => Err(BuildError::Undecided { cut, edge }),
            None => Ok(Plan::of(self.handles.clone(), self.records.clone())),
        }
    }
}

/// What is asked of a thing before it is taken.
impl PlanBuilder {
    pub(crate) fn check_node(&self, node: &Node) -> Result<(), BuildError> {
        match node {
            Node::Literal(_) => Ok(()),
            Node::Fact(fact) => self.fact_here(*fact).map(drop),
            Node::And(children) | Node::Or(children) => {
                at_most("children of a node", children.len(), limits::CHILDREN)?;
                self.nodes_here(children)
            }
            Node::Not(child) => self.node_here(*child).map(drop),
        }
    }

    pub(crate) fn check_edge(&self, edge: &Edge) -> Result<(), BuildError> {
        person(edge.left)?;
        person(edge.right)?;
        cited(edge.citation)?;
        self.node_here(edge.condition)?;
        at_most("defeaters of an edge", edge.defeaters.len(), limits::CHILDREN)?;
        self.nodes_here(&edge.defeaters)
    }

    pub(crate) fn check_cut(&self, cut: &Cut) -> Result<(), BuildError> {
        self.node_here(cut.condition)?;
        cited(cut.citation)?;
        cut.election.iter().try_for_each(|election| self.election_here(election))?;
        self.decisions_here(&cut.decisions)?;
        cut.precedes.iter().try_for_each(|&other| self.cut_here(other).map(drop))
    }

    pub(crate) fn check_attachment(&self, rule: &Attachment) -> Result<(), BuildError> {
        person(rule.anchor)?;
        self.node_here(rule.condition)?;
        cited(rule.citation)?;
        acting(rule.actor)?;
        rule.election.iter().try_for_each(|election| self.election_here(election))
    }

    pub(crate) fn check_bar(&self, bar: &Bar) -> Result<(), BuildError> {
        self.node_here(bar.condition)?;
        cited(bar.citation).map(drop)
    }

    pub(crate) fn check_status(&self, status: &Status) -> Result<(), BuildError> {
        person(status.person)?;
        self.node_here(status.condition)?;
        cited(status.citation).map(drop)
    }

    pub(crate) fn fact_here(&self, fact: FactId) -> Result<usize, BuildError> {
        here(&self.handles.facts, fact)
    }

    pub(crate) fn node_here(&self, node: NodeId) -> Result<usize, BuildError> {
        here(&self.handles.nodes, node)
    }

    fn nodes_here(&self, nodes: &[NodeId]) -> Result<(), BuildError> {
        nodes.iter().try_for_each(|&node| self.node_here(node).map(drop))
    }

    pub(crate) fn edge_here(&self, edge: EdgeId) -> Result<usize, BuildError> {
        here(&self.handles.edges, edge)
    }

    pub(crate) fn cut_here(&self, cut: CutId) -> Result<usize, BuildError> {
        here(&self.handles.cuts, cut)
    }

    /// Of this plan, no edge twice, and not too many unresolved.
    pub(crate) fn decisions_here(&self, list: &[(EdgeId, Decision)]) -> Result<(), BuildError> {
        for (place, &(edge, _)) in list.iter().enumerate() {
            self.edge_here(edge)?;
            if list.iter().take(place).any(|&(earlier, _)| earlier == edge) {
                return Err(BuildError::DecidedTwice { edge: current(&self.handles.edges, edge) });
            }
        }
        let there = self.records.cuts.iter().map(|cut| unresolved(&cut.decisions));
        let count = there.sum::<usize>() + unresolved(list);
        at_most("unresolved decisions", count, limits::UNRESOLVED)
    }

    /// In range, on a fact of this plan, and equal to every other election on it.
    fn election_here(&self, election: &Election) -> Result<(), BuildError> {
        self.check_election(election)?;
        let differs = |other: &Election| other.fact == election.fact && other != election;
        if self.records.elections().any(differs) {
            return Err(BuildError::ElectionsDiffer { fact: self.counted(election.fact) });
        }
        Ok(())
    }

    pub(crate) fn check_election(&self, election: &Election) -> Result<(), BuildError> {
        self.fact_here(election.fact.into())?;
        acting(election.actor)?;
        cited(election.citation).map(drop)
    }

    /// With the number that it would have in the file: boolean facts come first, as they came.
    fn counted(&self, fact: BooleanId) -> BooleanId {
        let place = self.handles.facts.place(fact).unwrap_or(0);
        let before = self.records.facts.iter().take(place).filter(|fact| **fact == Fact::Boolean);
        BooleanId { number: u8::try_from(before.count()).unwrap_or(u8::MAX), ..fact }
    }
}

/// The place of what a handle names.
pub(crate) fn here<H: Handle>(given: &Given, handle: H) -> Result<usize, BuildError> {
    given.place(handle).ok_or(BuildError::NotOfThisPlan { what: H::WHAT })
}

/// What stands at a place that a handle gave.
pub(crate) fn at<T>(list: &mut [T], place: usize) -> Result<&mut T, BuildError> {
    list.get_mut(place).ok_or(BuildError::NotOfThisPlan { what: "record" })
}

/// The handle with the number that it has here.
pub(crate) fn current<H: Handle>(given: &Given, handle: H) -> H {
    given.place(handle).and_then(|place| given.at(place)).unwrap_or(handle)
}

/// A relation fact with numbers in their range.
pub(crate) fn relation(family: u8, tuple: &[u8]) -> Result<Fact, BuildError> {
    at_most("persons in a tuple", tuple.len(), limits::TUPLE)?;
    tuple.iter().try_for_each(|&number| person(number).map(drop))?;
    Ok(Fact::Relation { family, tuple: tuple.to_vec() })
}

pub(crate) fn person(number: u8) -> Result<u8, BuildError> {
    within("person", number, 0, 63)
}

fn cited(citation: Citation) -> Result<Citation, BuildError> {
    within("citation", citation.0, 0, limits::CITATION).map(Citation)
}

fn acting(actor: Actor) -> Result<Actor, BuildError> {
    within("actor", actor.0, 1, 255).map(Actor)
}

fn unresolved(decisions: &[(EdgeId, Decision)]) -> usize {
    decisions.iter().filter(|(_, decision)| *decision == Decision::Unresolved).count()
}

/// A cut that is preceded twice is preceded.
pub(crate) fn drop_repeats(list: &mut Vec<CutId>) {
    let mut seen = Vec::new();
    list.retain(|cut| {
        let new = !seen.contains(cut);
        seen.push(*cut);
        new
    });
}

/// The handle of a new thing in its list.
fn push<T, H: Handle>(
    handles: &mut Given,
    list: &mut Vec<T>,
    item: T,
    what: &'static str,
    most: usize,
) -> Result<H, BuildError> {
    at_most(what, list.len() + 1, most)?;
    let number = u8::try_from(list.len()).map_err(|_| BuildError::TooMany { what, most })?;
    list.push(item);
    Ok(handles.push(number))
}
