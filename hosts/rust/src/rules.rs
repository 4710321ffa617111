//! The rules of a plan, all five sorts alike: whom each names, which nodes it asks, whether it joins persons.

use crate::handles::NodeId;
use crate::persons::Persons;
use crate::records::{Attachment, Bar, Cut, Edge, Records, Status};

/// A rule, by its number in the file.
#[derive(Clone, Copy, Debug, PartialEq, Eq, Hash, PartialOrd, Ord)]
pub enum Rule {
    Edge(u8),
    Cut(u8),
    Attachment(u8),
    Bar(u8),
    Status(u8),
}

impl Rule {
    /// What it is called: edge, cut, attachment, bar or status.
    pub fn kind(self) -> &'static str {
        match self {
            Rule::Edge(_) => "edge",
            Rule::Cut(_) => "cut",
            Rule::Attachment(_) => "attachment",
            Rule::Bar(_) => "bar",
            Rule::Status(_) => "status",
        }
    }

    pub fn number(self) -> u8 {
        match self {
            Rule::Edge(number)
            | Rule::Cut(number)
            | Rule::Attachment(number)
            | Rule::Bar(number)
            | Rule::Status(number) => number,
        }
    }
}

/// What a rule says of persons and conditions.
#[derive(Clone, Debug)]
pub(crate) struct RuleOf<'a> {
    pub(crate) rule: Rule,
    /// Members, ends, anchor, person: all that it names.
    pub(crate) persons: Persons,
    pub(crate) condition: NodeId,
    pub(crate) defeaters: &'a [NodeId],
}

impl RuleOf<'_> {
    /// Condition and defeaters.
    pub(crate) fn nodes(&self) -> impl Iterator<Item = NodeId> {
        std::iter::once(self.condition).chain(self.defeaters.iter().copied())
    }

    /// A status names one person and joins nobody.
    pub(crate) fn joins(&self) -> bool {
        !matches!(self.rule, Rule::Status(_))
    }
}

fn edge((edge, number): (&Edge, u8)) -> RuleOf<'_> {
    let (persons, condition) = (edge.ends(), edge.condition);
    RuleOf { rule: Rule::Edge(number), persons, condition, defeaters: &edge.defeaters }
}

fn cut((cut, number): (&Cut, u8)) -> RuleOf<'_> {
    let (persons, condition) = (cut.members, cut.condition);
    RuleOf { rule: Rule::Cut(number), persons, condition, defeaters: &[] }
}

fn attachment((rule, number): (&Attachment, u8)) -> RuleOf<'_> {
    let (persons, condition) = (rule.persons(), rule.condition);
    RuleOf { rule: Rule::Attachment(number), persons, condition, defeaters: &[] }
}

fn bar((bar, number): (&Bar, u8)) -> RuleOf<'_> {
    let (persons, condition) = (bar.members, bar.condition);
    RuleOf { rule: Rule::Bar(number), persons, condition, defeaters: &[] }
}

fn status((status, number): (&Status, u8)) -> RuleOf<'_> {
    let (persons, condition) = (status.persons(), status.condition);
    RuleOf { rule: Rule::Status(number), persons, condition, defeaters: &[] }
}

/// Every rule of a plan: edges, cuts, attachments, bars, statuses, each rising.
pub(crate) fn rules(records: &Records) -> impl Iterator<Item = RuleOf<'_>> {
    let edges = records.edges.iter().zip(0..).map(edge);
    let cuts = records.cuts.iter().zip(0..).map(cut);
    let attachments = records.attachments.iter().zip(0..).map(attachment);
    let bars = records.bars.iter().zip(0..).map(bar);
    let statuses = records.statuses.iter().zip(0..).map(status);
    edges.chain(cuts).chain(attachments).chain(bars).chain(statuses)
}

/// The sets of persons that rules join.
pub(crate) fn joined_sets(records: &Records) -> Vec<Persons> {
    rules(records).filter(RuleOf::joins).map(|rule| rule.persons).collect()
}

/// A set and all who are reached from it through sets that meet it.
pub(crate) fn close(sets: &[Persons], start: Persons) -> Persons {
    let mut reached = start;
    loop {
        let meeting = sets.iter().filter(|set| set.meets(reached));
        let next = meeting.fold(reached, |all, set| all.union(*set));
        if next == reached {
            return reached;
        }
        reached = next;
    }
}
