//! Goes over a plan and finds what is seldom meant.

use crate::conditions::Conditions;
use crate::persons::Persons;
use crate::plan::Plan;
use crate::records::{Attachment, Cut, Decision, Election, Records};
use crate::rules::{Rule, rules};
use crate::warning::Warning;

impl Plan {
    /// What is accepted and probably a slip, in the order of records. Whether a condition can ever hold is tried with a bound on the work:
    /// where it is reached, nothing is said.
    pub fn warnings(&self) -> Vec<Warning> {
        let (records, conditions) = (self.records(), Conditions::of(self));
        let mut found = unused(self, &conditions);
        found.extend(never(records, &conditions));
        found.extend(edges(records));
        found.extend(elections(records, &conditions));
        found.extend(cuts(records));
        found.extend(precedence(records));
        found.extend(disagreeing(records));
        found.extend(attachments(records));
        found.extend(pairs(records));
        found.extend(bars(records));
        found.sort_by_key(|warning| warning.record(self));
        found
    }
}

fn unused(plan: &Plan, conditions: &Conditions) -> Vec<Warning> {
    let records = plan.records();
    let used = conditions.facts_of(records.rule_nodes().map(|node| node.number));
    let elected = records.elections().fold(0, |all, election| all | bit(election.fact.number));
    let facts = (0u8..).take(records.facts.len()).filter(|fact| (used | elected) & bit(*fact) == 0);
    let facts = facts.map(|fact| {
        let asked = conditions.asked() & bit(fact) != 0;
        Warning::UnusedFact { fact, asked }
    });
    let nodes = (0u8..=255).take(records.nodes.len());
    let named = |node: &u8| {
        let children = records.nodes.iter().flat_map(|other| other.children());
        children.copied().chain(records.rule_nodes()).any(|other| other.number == *node)
    };
    let nodes = nodes.filter(|node| !named(node)).map(|node| Warning::UnusedNode { node });
    facts.chain(nodes).collect()
}

/// Bit n stands for fact n, of which there are 64.
pub(crate) fn bit(fact: u8) -> u64 {
    1u64.checked_shl(u32::from(fact)).unwrap_or(0)
}

/// Rules that can be shown never to take effect.
fn never(records: &Records, conditions: &Conditions) -> Vec<Warning> {
    let never = rules(records).filter_map(|rule| {
        let condition = rule.condition.number;
        let defeaters: Vec<u8> = rule.defeaters.iter().map(|node| node.number).collect();
        let fails = |defeaters: &[u8]| conditions.can_hold(condition, defeaters) == Some(false);
        let defeaters = fails(&defeaters).then(|| !defeaters.is_empty() && !fails(&[]))?;
        Some(Warning::NeverHolds { rule: rule.rule, defeaters })
    });
    never.collect()
}

fn edges(records: &Records) -> Vec<Warning> {
    let edges = records.edges.iter().zip(0u8..).filter(|(edge, _)| edge.left == edge.right);
    edges.map(|(edge, number)| Warning::SelfEdge { edge: number, person: edge.left }).collect()
}

/// Elections on facts that the rule's condition does not use.
fn elections(records: &Records, conditions: &Conditions) -> Vec<Warning> {
    let cuts = records.cuts.iter().zip(0u8..);
    let cuts = cuts.map(|(cut, number)| (Rule::Cut(number), cut.condition, cut.election));
    let rules = records.attachments.iter().zip(0u8..);
    let rules =
        rules.map(|(rule, number)| (Rule::Attachment(number), rule.condition, rule.election));
    let unused = cuts.chain(rules).filter_map(|(rule, condition, election)| {
        let Election { fact, .. } = election?;
        let used = conditions.facts_of([condition.number]) & bit(fact.number) != 0;
        (!used).then_some(Warning::ElectionUnused { rule, fact: fact.number })
    });
    unused.collect()
}

fn cuts(records: &Records) -> Vec<Warning> {
    let cuts = records.cuts.iter().zip(0u8..);
    let found = cuts.flat_map(|(cut, number)| {
        let empty = cut.members.is_empty().then_some(Warning::EmptyCut { cut: number });
        empty.into_iter().chain(base_edges(records, cut, number)).chain(repeated(cut, number))
    });
    found.collect()
}

fn base_edges(records: &Records, cut: &Cut, number: u8) -> Vec<Warning> {
    let base =
        |edge: u8| records.edges.get(usize::from(edge)).is_some_and(|edge| !edge.combination);
    let decided = cut.decisions.iter().filter(|(edge, _)| base(edge.number));
    let warning = |(edge, said): &(crate::EdgeId, Decision)| {
        let unresolved = *said == Decision::Unresolved;
        Warning::BaseEdgeDecided { cut: number, edge: edge.number, unresolved }
    };
    decided.map(warning).collect()
}

/// Each cut that the list has more than once.
fn repeated(cut: &Cut, number: u8) -> Vec<Warning> {
    let all: Vec<u8> = cut.precedes.iter().map(|other| other.number).collect();
    let count = |cut: u8| all.iter().filter(|other| **other == cut).count();
    let mut twice: Vec<u8> = all.iter().copied().filter(|cut| count(*cut) > 1).collect();
    twice.sort_unstable();
    twice.dedup();
    twice.into_iter().map(|preceded| Warning::PrecedenceTwice { cut: number, preceded }).collect()
}

/// For each cut a mask of those that it precedes, through others too.
fn reached(records: &Records) -> Vec<u64> {
    let direct = |cut: &Cut| cut.precedes.iter().fold(0, |all, other| all | bit(other.number));
    let mut reach: Vec<u64> = records.cuts.iter().map(direct).collect();
    for middle in 0..reach.len() {
        let through = reach.get(middle).copied().unwrap_or(0);
        reach.iter_mut().filter(|mask| **mask >> middle & 1 == 1).for_each(|mask| *mask |= through);
    }
    reach
}

fn precedes(reach: &[u64], cut: u8, other: u8) -> bool {
    reach.get(usize::from(cut)).is_some_and(|mask| mask & bit(other) != 0)
}

/// Cuts that precede themselves, and circles of several, each named by its lowest cut.
fn precedence(records: &Records) -> Vec<Warning> {
    let reach = reached(records);
    let numbers = || (0u8..).take(records.cuts.len());
    let itself = records
        .cuts
        .iter()
        .zip(0u8..)
        .filter(|(cut, number)| cut.precedes.iter().any(|preceded| preceded.number == *number));
    let itself = itself.map(|(_, cut)| Warning::PrecedesItself { cut });
    let circle = |cut: u8| -> Vec<u8> {
        numbers()
            .filter(|&other| precedes(&reach, cut, other) && precedes(&reach, other, cut))
            .collect()
    };
    let circles = numbers().map(|cut| (cut, circle(cut)));
    let circles = circles.filter(|(cut, circle)| circle.len() > 1 && circle.first() == Some(cut));
    itself.chain(circles.map(|(_, cuts)| Warning::PrecedenceCircle { cuts })).collect()
}

/// Cuts of one set, neither preceding the other, that decide an edge differently.
fn disagreeing(records: &Records) -> Vec<Warning> {
    let reach = reached(records);
    let cuts = || records.cuts.iter().zip(0u8..);
    let pairs = cuts().flat_map(|left| cuts().map(move |right| (left, right)));
    let merged = pairs.filter(|((left, earlier), (right, later))| {
        let ordered = precedes(&reach, *earlier, *later) || precedes(&reach, *later, *earlier);
        earlier < later && left.members == right.members && !ordered
    });
    let found = merged.flat_map(|((left, earlier), (right, later))| {
        let edges = differing(records, left, right).into_iter();
        edges.map(move |edge| Warning::DecisionsDisagree { earlier, later, edge })
    });
    found.collect()
}

/// The Combination edges that cross two cuts of one set and are decided differently.
fn differing(records: &Records, left: &Cut, right: &Cut) -> Vec<u8> {
    let said = |cut: &Cut, number: u8| {
        let mut decisions = cut.decisions.iter();
        decisions.find(|(edge, _)| edge.number == number).map(|(_, said)| *said)
    };
    let crossing = records
        .edges
        .iter()
        .zip(0u8..)
        .filter(|(edge, _)| edge.combination && left.members.parts(edge.left, edge.right));
    let differ = crossing.filter(|(_, number)| said(left, *number) != said(right, *number));
    differ.map(|(_, number)| number).collect()
}

fn attachments(records: &Records) -> Vec<Warning> {
    let rules = records.attachments.iter().zip(0u8..);
    rules.flat_map(|(rule, number)| attachment(rule, number)).collect()
}

fn attachment(rule: &Attachment, attachment: u8) -> Vec<Warning> {
    let (anchor, actor) = (rule.anchor, rule.actor.0);
    let empty = rule.members.is_empty().then_some(Warning::EmptyAttachment { attachment });
    let among = rule.members.holds(anchor);
    let among = among.then_some(Warning::AnchorAmongMembers { attachment, anchor });
    let elector = rule.election.map(|election| election.actor.0).filter(|other| *other != actor);
    let other = elector.map(|elector| Warning::OtherActor { attachment, actor, elector });
    [empty, among, other].into_iter().flatten().collect()
}

/// Attachments that share members, and those that move another's anchor.
fn pairs(records: &Records) -> Vec<Warning> {
    let rules = || records.attachments.iter().zip(0u8..);
    let pairs = rules().flat_map(|left| rules().map(move |right| (left, right)));
    let found = pairs.filter(|((_, left), (_, right))| left != right).flat_map(|(left, right)| {
        let ((earlier, number), (later, other)) = (left, right);
        let both = Persons::from_mask(earlier.members.mask() & later.members.mask());
        let shared = (number < other && !both.is_empty()).then_some(Warning::SharedMembers {
            earlier: number,
            later: other,
            persons: both,
        });
        let moved = later.members.holds(earlier.anchor).then_some(Warning::AnchorMoved {
            attachment: number,
            anchor: earlier.anchor,
            mover: other,
        });
        shared.into_iter().chain(moved)
    });
    found.collect()
}

fn bars(records: &Records) -> Vec<Warning> {
    let empty = records.bars.iter().zip(0u8..).filter(|(bar, _)| bar.members.is_empty());
    empty.map(|(_, bar)| Warning::EmptyBar { bar }).collect()
}
