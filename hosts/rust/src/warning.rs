//! What a plan says that is accepted, and is seldom meant.

use std::fmt;

use crate::names::{Names, listed};
use crate::persons::Persons;
use crate::plan::Plan;
use crate::rules::Rule;

/// Something in an accepted plan that is probably a slip. Facts, nodes and rules go by their numbers in the file. The first fifteen are what
/// the original refused: docs/DIFFERENCES.md, B1 to B15.
#[derive(Clone, Debug, PartialEq, Eq)]
pub enum Warning {
    /// B1: an edge from somebody to the same person.
    SelfEdge { edge: u8, person: u8 },
    /// B2.
    EmptyCut { cut: u8 },
    /// B3.
    EmptyBar { bar: u8 },
    /// B4.
    EmptyAttachment { attachment: u8 },
    /// B5.
    AnchorAmongMembers { attachment: u8, anchor: u8 },
    /// B6: two attachments move the same persons.
    SharedMembers { earlier: u8, later: u8, persons: Persons },
    /// B7: an attachment moves the anchor of another.
    AnchorMoved { attachment: u8, anchor: u8, mover: u8 },
    /// B8: the actor of an attachment is not its election's.
    OtherActor { attachment: u8, actor: u8, elector: u8 },
    /// B9 and B10: the election of a cut or an attachment is on a fact that its condition does not use.
    ElectionUnused { rule: Rule, fact: u8 },
    /// B11: a decision on a Base edge.
    BaseEdgeDecided { cut: u8, edge: u8, unresolved: bool },
    /// B12.
    PrecedesItself { cut: u8 },
    /// B13: each of these cuts precedes all of them, through others perhaps.
    PrecedenceCircle { cuts: Vec<u8> },
    /// B14.
    PrecedenceTwice { cut: u8, preceded: u8 },
    /// B15: cuts of one set, neither preceding the other, that decide an edge differently.
    DecisionsDisagree { earlier: u8, later: u8, edge: u8 },
    /// No rule uses a fact; a node asks for it, or none does.
    UnusedFact { fact: u8, asked: bool },
    /// Neither a rule nor another node uses a node.
    UnusedNode { node: u8 },
    /// The condition of a rule is false whatever the facts are; for an edge, unless a defeater is true.
    NeverHolds { rule: Rule, defeaters: bool },
}

impl Warning {
    /// A short name for programs.
    pub fn code(&self) -> &'static str {
        match self {
            Warning::SelfEdge { .. } => "self-edge",
            Warning::EmptyCut { .. } => "empty-cut",
            Warning::EmptyBar { .. } => "empty-bar",
            Warning::EmptyAttachment { .. } => "empty-attachment",
            Warning::AnchorAmongMembers { .. } => "anchor-among-members",
            Warning::SharedMembers { .. } => "shared-members",
            Warning::AnchorMoved { .. } => "anchor-moved",
            Warning::OtherActor { .. } => "other-actor",
            Warning::ElectionUnused { .. } => "election-unused",
            Warning::BaseEdgeDecided { .. } => "base-edge-decided",
            Warning::PrecedesItself { .. } => "precedes-itself",
            Warning::PrecedenceCircle { .. } => "precedence-circle",
            Warning::PrecedenceTwice { .. } => "precedence-twice",
            Warning::DecisionsDisagree { .. } => "decisions-disagree",
            Warning::UnusedFact { .. } => "unused-fact",
            Warning::UnusedNode { .. } => "unused-node",
            Warning::NeverHolds { .. } => "never-holds",
        }
    }

    /// Kind and number of the record that it is about; of several the last.
    pub fn subject(&self) -> (&'static str, u8) {
        match self {
            Warning::SelfEdge { edge, .. } => ("edge", *edge),
            Warning::EmptyBar { bar } => ("bar", *bar),
            Warning::EmptyCut { cut }
            | Warning::BaseEdgeDecided { cut, .. }
            | Warning::PrecedesItself { cut }
            | Warning::PrecedenceTwice { cut, .. } => ("cut", *cut),
            Warning::PrecedenceCircle { cuts } => ("cut", cuts.last().copied().unwrap_or(0)),
            Warning::DecisionsDisagree { later, .. } => ("cut", *later),
            Warning::EmptyAttachment { attachment }
            | Warning::AnchorAmongMembers { attachment, .. }
            | Warning::OtherActor { attachment, .. } => ("attachment", *attachment),
            Warning::SharedMembers { later, .. } => ("attachment", *later),
            Warning::AnchorMoved { attachment, mover, .. } => {
                ("attachment", *attachment.max(mover))
            }
            Warning::UnusedFact { fact, .. } => ("fact", *fact),
            Warning::UnusedNode { node } => ("node", *node),
            Warning::ElectionUnused { rule, .. } | Warning::NeverHolds { rule, .. } => {
                (rule.kind(), rule.number())
            }
        }
    }

    /// The record that it is about, counted from 0 over the file.
    pub fn record(&self, plan: &Plan) -> usize {
        let (kind, number) = self.subject();
        let records = plan.records();
        let counts = [
            ("fact", records.facts.len()),
            ("node", records.nodes.len()),
            ("edge", records.edges.len()),
            ("cut", records.cuts.len()),
            ("attachment", records.attachments.len()),
            ("bar", records.bars.len()),
            ("status", records.statuses.len()),
        ];
        let before = counts.iter().take_while(|(other, _)| *other != kind);
        1 + before.map(|(_, count)| count).sum::<usize>() + usize::from(number)
    }

    /// What is odd, and what would mend it or why it may be meant, with names.
    pub fn in_words(&self, names: &Names) -> String {
        let say = |kind, number| names.numbered(kind, number);
        match self {
            Warning::SelfEdge { edge, person } => format!(
                "{} has {} at both ends, so that it joins nobody: write the other end, or take it out",
                say("edge", *edge),
                say("person", *person)
            ),
            Warning::EmptyCut { cut } => empty(say("cut", *cut), "sets nobody apart"),
            Warning::EmptyBar { bar } => empty(say("bar", *bar), "bars nobody"),
            Warning::EmptyAttachment { attachment } => {
                empty(say("attachment", *attachment), "moves nobody")
            }
            Warning::UnusedFact { .. }
            | Warning::UnusedNode { .. }
            | Warning::NeverHolds { .. }
            | Warning::ElectionUnused { .. } => self.of_conditions(names),
            Warning::AnchorAmongMembers { .. }
            | Warning::SharedMembers { .. }
            | Warning::AnchorMoved { .. }
            | Warning::OtherActor { .. } => self.of_attachments(names),
            Warning::BaseEdgeDecided { .. }
            | Warning::PrecedesItself { .. }
            | Warning::PrecedenceCircle { .. }
            | Warning::PrecedenceTwice { .. }
            | Warning::DecisionsDisagree { .. } => self.of_cuts(names),
        }
    }

    fn of_conditions(&self, names: &Names) -> String {
        let say = |kind, number| names.numbered(kind, number);
        let the_rule = |rule: &Rule| say(rule.kind(), rule.number());
        match self {
            Warning::UnusedFact { fact, asked: true } => format!(
                "no rule uses {}, only a constraint of a case can: take it out if none does",
                say("fact", *fact)
            ),
            Warning::UnusedFact { fact, asked: false } => format!(
                "no node asks for {}, so that nothing can use it: write what is missing, or take it out",
                say("fact", *fact)
            ),
            Warning::UnusedNode { node } => format!(
                "neither a rule nor another node uses node {node}, only a constraint of a case can: take it out if none does"
            ),
            Warning::NeverHolds { rule, defeaters: true } => format!(
                "{} never takes effect, whatever the facts are, since a defeater is true wherever its condition is: correct them, or take the edge out unless it is switched off on purpose",
                the_rule(rule)
            ),
            Warning::NeverHolds { rule, defeaters: false } => format!(
                "{} never takes effect, since its condition is false whatever the facts are: correct the condition, or take the {} out unless it is switched off on purpose",
                the_rule(rule),
                rule.kind()
            ),
            Warning::ElectionUnused { rule, fact } => format!(
                "the election of {} is on {}, which its condition does not use, so that electing does not make it hold: use the fact in the condition, or elect by one that it uses",
                the_rule(rule),
                say("fact", *fact)
            ),
            _ => String::new(),
        }
    }

    fn of_attachments(&self, names: &Names) -> String {
        let say = |kind, number| names.numbered(kind, number);
        let person = |number| say("person", number);
        match self {
            Warning::AnchorAmongMembers { attachment, anchor } => format!(
                "{} has its anchor {} among its members: the anchor is there already, and counts as attached, which can spare it a bar; take it out of the members unless that is meant",
                say("attachment", *attachment),
                person(*anchor)
            ),
            Warning::SharedMembers { earlier, later, persons } => format!(
                "{} and {} both move {}: where both hold, the later one acts last; make their conditions exclude each other, unless the order is meant",
                say("attachment", *earlier),
                say("attachment", *later),
                listed(persons.iter().map(person))
            ),
            Warning::AnchorMoved { attachment, anchor, mover } => {
                let (rule, mover_words) =
                    (say("attachment", *attachment), say("attachment", *mover));
                let when = if mover > attachment {
                    "after others were attached to that person, and takes only its own members along"
                } else {
                    "before others are attached to that person, and these follow"
                };
                format!(
                    "{mover_words} moves {}, the anchor of {rule}: where both hold, it does so {when}; see whether the order is meant",
                    person(*anchor)
                )
            }
            Warning::OtherActor { attachment, actor, elector } => format!(
                "{} has {}, and its election {}: the attachment's event names the first, the event of a default the second; make them equal unless both are meant",
                say("attachment", *attachment),
                say("actor", *actor),
                say("actor", *elector)
            ),
            _ => String::new(),
        }
    }

    fn of_cuts(&self, names: &Names) -> String {
        let say = |kind, number| names.numbered(kind, number);
        let cut_words = |number| say("cut", number);
        match self {
            Warning::BaseEdgeDecided { cut, edge, unresolved } => {
                let doubled = if *unresolved { ", but doubles the worlds" } else { "" };
                format!(
                    "{} decides {}, which is a Base edge and never blocks a cut, so that the decision settles nothing{doubled}: take it out, or make the edge a Combination edge",
                    cut_words(*cut),
                    say("edge", *edge)
                )
            }
            Warning::PrecedesItself { cut } => {
                format!("{} precedes itself, which says nothing: take that out", cut_words(*cut))
            }
            Warning::PrecedenceCircle { cuts } => format!(
                "{} precede each other in a circle, so that of two that overlap neither gives way: take one precedence out",
                listed(cuts.iter().map(|cut| cut_words(*cut)))
            ),
            Warning::PrecedenceTwice { cut, preceded } => format!(
                "{} says more than once that it precedes {}: once is enough",
                cut_words(*cut),
                cut_words(*preceded)
            ),
            Warning::DecisionsDisagree { earlier, later, edge } => format!(
                "{} and {} have the same members and decide {} differently: where both hold they act as one, which the edge blocks as soon as one of the decisions does; decide alike, or let one precede the other",
                cut_words(*earlier),
                cut_words(*later),
                say("edge", *edge)
            ),
            _ => String::new(),
        }
    }
}

fn empty(rule: String, what: &str) -> String {
    format!("{rule} has no members, so that it {what}: give it members, or take it out")
}

/// With numbers; [`in_words`](Warning::in_words) has names, too.
impl fmt::Display for Warning {
    fn fmt(&self, to: &mut fmt::Formatter) -> fmt::Result {
        write!(to, "{}", self.in_words(&Names::default()))
    }
}
