//! Changes what a plan in the making says. What is changed keeps its handle.

use crate::build_error::BuildError;
use crate::handles::{AttachmentId, BarId, CutId, EdgeId, NodeId, RelationId, StatusId};
use crate::plan_builder::{PlanBuilder, at, current, drop_repeats, here, relation};
use crate::records::{Attachment, Bar, Cut, Decision, Edge, Election, Node, Precedence, Status};

impl PlanBuilder {
    /// For rosters of another relation.
    pub fn roster_relation(&mut self, relation: u8) {
        self.records.relation = relation;
    }

    /// Chains of Base edges are left to discretion.
    pub fn no_base_chain(&mut self) {
        self.records.chain = None;
    }

    /// A relation fact becomes one of another family or of other persons, wherever it is used.
    pub fn replace_relation(
        &mut self,
        fact: RelationId,
        family: u8,
        tuple: &[u8],
    ) -> Result<(), BuildError> {
        let place = here(&self.handles.facts, fact)?;
        let changed = relation(family, tuple)?;
        let same = self.records.facts.iter().position(|other| *other == changed);
        if same.is_some_and(|other| other != place) {
            return Err(BuildError::RelationTwice { family, tuple: tuple.to_vec() });
        }
        *at(&mut self.records.facts, place)? = changed;
        Ok(())
    }

    /// Another condition in the place of a node, wherever it is used. Its children must have come before the node.
    pub fn replace_node(&mut self, node: NodeId, changed: Node) -> Result<(), BuildError> {
        let place = self.node_here(node)?;
        self.check_node(&changed)?;
        let higher = |child: &&NodeId| self.node_here(**child).is_ok_and(|child| child >= place);
        if let Some(child) = changed.children().iter().find(higher) {
            let [node, child] = [node, *child].map(|node| current(&self.handles.nodes, node));
            return Err(BuildError::NotLower { node, child });
        }
        *at(&mut self.records.nodes, place)? = changed;
        Ok(())
    }

    /// Another edge in the place of an edge; decisions on it stay.
    pub fn replace_edge(&mut self, edge: EdgeId, changed: Edge) -> Result<(), BuildError> {
        let place = self.edge_here(edge)?;
        self.check_edge(&changed)?;
        *at(&mut self.records.edges, place)? = changed;
        Ok(())
    }

    /// Another cut in the place of a cut, with decisions, election and preceded cuts of its own.
    pub fn replace_cut(&mut self, cut: CutId, mut changed: Cut) -> Result<(), BuildError> {
        let place = self.cut_here(cut)?;
        let mut others = self.clone();
        let before = at(&mut others.records.cuts, place)?;
        (before.election, before.decisions) = (None, Vec::new());
        others.check_cut(&changed)?;
        drop_repeats(&mut changed.precedes);
        *at(&mut self.records.cuts, place)? = changed;
        Ok(())
    }

    /// Another attachment in the place of an attachment.
    pub fn replace_attachment(
        &mut self,
        rule: AttachmentId,
        changed: Attachment,
    ) -> Result<(), BuildError> {
        let place = here(&self.handles.attachments, rule)?;
        let mut others = self.clone();
        at(&mut others.records.attachments, place)?.election = None;
        others.check_attachment(&changed)?;
        *at(&mut self.records.attachments, place)? = changed;
        Ok(())
    }

    /// Another bar in the place of a bar.
    pub fn replace_bar(&mut self, bar: BarId, changed: Bar) -> Result<(), BuildError> {
        let place = here(&self.handles.bars, bar)?;
        self.check_bar(&changed)?;
        *at(&mut self.records.bars, place)? = changed;
        Ok(())
    }

    /// Another status in the place of a status.
    pub fn replace_status(&mut self, status: StatusId, changed: Status) -> Result<(), BuildError> {
        let place = here(&self.handles.statuses, status)?;
        self.check_status(&changed)?;
        *at(&mut self.records.statuses, place)? = changed;
        Ok(())
    }

    /// All elections on this election's fact become it, since they must be equal. How many there were.
    pub fn replace_elections(&mut self, election: Election) -> Result<usize, BuildError> {
        self.check_election(&election)?;
        let cuts = self.records.cuts.iter_mut().filter_map(|cut| cut.election.as_mut());
        let rules = self.records.attachments.iter_mut().filter_map(|rule| rule.election.as_mut());
        let all = cuts.chain(rules).filter(|other| other.fact == election.fact);
        Ok(all.map(|other| *other = election).count())
    }

    /// Decides an edge otherwise in a cut that decides it.
    pub fn redecide(
        &mut self,
        cut: CutId,
        edge: EdgeId,
        decision: Decision,
    ) -> Result<(), BuildError> {
        let mut trial = self.clone();
        trial.undecide(cut, edge)?;
        trial.decisions_here(&[(edge, decision)])?;
        let place = self.cut_here(cut)?;
        let list = &mut at(&mut self.records.cuts, place)?.decisions;
        let decided = list.iter_mut().filter(|(other, _)| *other == edge);
        decided.for_each(|(_, said)| *said = decision);
        Ok(())
    }

    /// Takes a decision back. Where the edge is a Combination edge and crosses the cut, it must be decided anew before the plan is finished.
    pub fn undecide(&mut self, cut: CutId, edge: EdgeId) -> Result<(), BuildError> {
        self.edge_here(edge)?;
        let place = self.cut_here(cut)?;
        let list = &mut at(&mut self.records.cuts, place)?.decisions;
        let before = list.len();
        list.retain(|(other, _)| *other != edge);
        if list.len() == before {
            return Err(BuildError::NotThere { what: "decision" });
        }
        Ok(())
    }

    /// A cut precedes another no more, but through others perhaps.
    pub fn unprecede(&mut self, said: Precedence) -> Result<(), BuildError> {
        let place = self.cut_here(said.cut)?;
        let list = &mut at(&mut self.records.cuts, place)?.precedes;
        let before = list.len();
        list.retain(|other| *other != said.precedes);
        if list.len() == before {
            return Err(BuildError::NotThere { what: "precedence" });
        }
        Ok(())
    }
}
