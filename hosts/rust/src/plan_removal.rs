//! Takes things out of a plan in the making. Handles of what stays stay good; a handle of what went names nothing any more.

use crate::build_error::BuildError;
use crate::handles::{
    AttachmentId, BarId, CutId, EdgeId, FactId, Given, Handle, NodeId, RuleId, StatusId,
};
use crate::persons::Persons;
use crate::plan_builder::{PlanBuilder, here, person};
use crate::records::{Attachment, Bar, Cut, Edge, Election, Node, Records, Status};

/// What went with a person.
#[derive(Clone, Debug, Default, PartialEq, Eq)]
pub struct Departure {
    /// Rules that were about this person: edges, statuses, attachments to the person, and sets that held nobody else.
    pub removed: Vec<RuleId>,
    /// Rules about a set, which stand for the others in it.
    pub narrowed: Vec<RuleId>,
}

impl PlanBuilder {
    /// A fact that no node and no election uses.
    pub fn remove_fact(&mut self, fact: impl Into<FactId>) -> Result<(), BuildError> {
        let fact = fact.into();
        let place = self.fact_here(fact)?;
        if fact_used(&self.records, fact) {
            return Err(BuildError::InUse { what: "fact" });
        }
        self.records.facts.remove(place);
        self.handles.facts.remove(place);
        Ok(())
    }

    /// A node that no rule and no other node uses.
    pub fn remove_node(&mut self, node: NodeId) -> Result<(), BuildError> {
        let place = self.node_here(node)?;
        let child = self.records.nodes.iter().any(|other| other.children().contains(&node));
        if child || self.records.rule_nodes().any(|used| used == node) {
            return Err(BuildError::InUse { what: "node" });
        }
        self.records.nodes.remove(place);
        self.handles.nodes.remove(place);
        Ok(())
    }

    /// Takes out all nodes that no rule uses, itself or through other nodes, and then all facts that neither a node nor an election uses. How
    /// many things went. Constraints of a case can use nodes that no rule uses: such a case needs the plan as it was.
    pub fn remove_unused(&mut self) -> usize {
        let before = self.records.nodes.len() + self.records.facts.len();
        let used = self.used_nodes();
        let mut places = used.iter();
        self.records.nodes.retain(|_| places.next().copied().unwrap_or(true));
        self.handles.nodes.keep(&used);
        let facts = 0..self.records.facts.len();
        let used: Vec<bool> = facts
            .map(|place| self.handles.facts.at(place))
            .map(|fact| fact.is_none_or(|fact| fact_used(&self.records, fact)))
            .collect();
        let mut places = used.iter();
        self.records.facts.retain(|_| places.next().copied().unwrap_or(true));
        self.handles.facts.keep(&used);
        before - self.records.nodes.len() - self.records.facts.len()
    }

    /// For each node whether a rule uses it, itself or through other nodes. Children are lower, so one way down finds all.
    fn used_nodes(&self) -> Vec<bool> {
        let mut used = vec![false; self.records.nodes.len()];
        let mark = |used: &mut Vec<bool>, node: NodeId| {
            let place = self.handles.nodes.place(node);
            if let Some(mark) = place.and_then(|place| used.get_mut(place)) {
                *mark = true;
            }
        };
        self.records.rule_nodes().for_each(|node| mark(&mut used, node));
        for (place, node) in self.records.nodes.iter().enumerate().rev() {
            if used.get(place).copied().unwrap_or(false) {
                node.children().iter().for_each(|child| mark(&mut used, *child));
            }
        }
        used
    }

    /// An edge, and all decisions on it.
    pub fn remove_edge(&mut self, edge: EdgeId) -> Result<Edge, BuildError> {
        let removed = take(&mut self.handles.edges, &mut self.records.edges, edge)?;
        let cuts = self.records.cuts.iter_mut();
        cuts.for_each(|cut| cut.decisions.retain(|(other, _)| *other != edge));
        Ok(removed)
    }

    /// A cut, and that others precede it. Who preceded another through it alone does so no more.
    pub fn remove_cut(&mut self, cut: CutId) -> Result<Cut, BuildError> {
        let removed = take(&mut self.handles.cuts, &mut self.records.cuts, cut)?;
        let others = self.records.cuts.iter_mut();
        others.for_each(|other| other.precedes.retain(|preceded| *preceded != cut));
        Ok(removed)
    }

    pub fn remove_attachment(&mut self, rule: AttachmentId) -> Result<Attachment, BuildError> {
        take(&mut self.handles.attachments, &mut self.records.attachments, rule)
    }

    pub fn remove_bar(&mut self, bar: BarId) -> Result<Bar, BuildError> {
        take(&mut self.handles.bars, &mut self.records.bars, bar)
    }

    pub fn remove_status(&mut self, status: StatusId) -> Result<Status, BuildError> {
        take(&mut self.handles.statuses, &mut self.records.statuses, status)
    }

    pub fn remove_rule(&mut self, rule: RuleId) -> Result<(), BuildError> {
        match rule {
            RuleId::Edge(edge) => self.remove_edge(edge).map(drop),
            RuleId::Cut(cut) => self.remove_cut(cut).map(drop),
            RuleId::Attachment(rule) => self.remove_attachment(rule).map(drop),
            RuleId::Bar(bar) => self.remove_bar(bar).map(drop),
            RuleId::Status(status) => self.remove_status(status).map(drop),
        }
    }

    /// A person leaves: no rule names the person any more, so that a roster without the person fits the plan. Edges, statuses and
    /// attachments to the person go, also sets of nobody else; other sets go on without the person. Facts stay, those too that name the
    /// person.
    pub fn remove_person(&mut self, number: u8) -> Result<Departure, BuildError> {
        let leaving = Persons::of(&[person(number)?])?;
        let removed = self.rules_about(leaving);
        removed.iter().try_for_each(|&rule| self.remove_rule(rule))?;
        Ok(Departure { removed, narrowed: self.narrow(leaving) })
    }

    /// The rules that do not stand without this person.
    fn rules_about(&self, leaving: Persons) -> Vec<RuleId> {
        let Records { edges, cuts, attachments, bars, statuses, .. } = &self.records;
        let handles = &self.handles;
        let edges = found(&handles.edges, edges, |edge| edge.ends().meets(leaving));
        let cuts = found(&handles.cuts, cuts, |cut| cut.members == leaving);
        let rules = found(&handles.attachments, attachments, |rule| {
            rule.members == leaving || leaving.holds(rule.anchor)
        });
        let bars = found(&handles.bars, bars, |bar| bar.members == leaving);
        let statuses = found(&handles.statuses, statuses, |status| status.persons() == leaving);
        let first = edges.map(RuleId::Edge).chain(cuts.map(RuleId::Cut));
        let then = first.chain(rules.map(RuleId::Attachment)).chain(bars.map(RuleId::Bar));
        then.chain(statuses.map(RuleId::Status)).collect()
    }

    /// Takes a person out of all sets.
    fn narrow(&mut self, leaving: Persons) -> Vec<RuleId> {
        let Records { cuts, attachments, bars, .. } = &mut self.records;
        let handles = &self.handles;
        let cuts: Vec<CutId> = narrowed(&handles.cuts, cuts, |cut| &mut cut.members, leaving);
        let rules: Vec<AttachmentId> =
            narrowed(&handles.attachments, attachments, |rule| &mut rule.members, leaving);
        let bars: Vec<BarId> = narrowed(&handles.bars, bars, |bar| &mut bar.members, leaving);
        let first = cuts.into_iter().map(RuleId::Cut);
        let then = first.chain(rules.into_iter().map(RuleId::Attachment));
        then.chain(bars.into_iter().map(RuleId::Bar)).collect()
    }
}

fn fact_used(records: &Records, fact: FactId) -> bool {
    let asked = |node: &Node| matches!(node, Node::Fact(other) if *other == fact);
    let elected = |other: &Election| FactId::from(other.fact) == fact;
    records.nodes.iter().any(asked) || records.elections().any(elected)
}

/// Takes out what a handle names.
fn take<T, H: Handle>(handles: &mut Given, list: &mut Vec<T>, handle: H) -> Result<T, BuildError> {
    let place = here(handles, handle)?;
    handles.remove(place);
    Ok(list.remove(place))
}

/// The handles of those that fit.
fn found<'a, T, H: Handle + 'a>(
    handles: &'a Given,
    list: &'a [T],
    fits: impl Fn(&T) -> bool + 'a,
) -> impl Iterator<Item = H> + 'a {
    let places = list.iter().enumerate().filter(move |(_, item)| fits(item));
    places.filter_map(|(place, _)| handles.at(place))
}

/// Takes a person out of the sets of one sort of rule; the handles of those that had the person.
fn narrowed<T, H: Handle>(
    handles: &Given,
    list: &mut [T],
    members: impl Fn(&mut T) -> &mut Persons,
    leaving: Persons,
) -> Vec<H> {
    let mut changed = Vec::new();
    for (place, item) in list.iter_mut().enumerate() {
        let set = members(item);
        if set.meets(leaving) {
            *set = set.without(leaving);
            changed.extend(handles.at::<H>(place));
        }
    }
    changed
}
