//! What facts, rules and decisions are called.

use crate::names::Names;
use crate::numbers::Citation;
use crate::plan::Plan;
use crate::records::Fact;
use crate::rules::Rule;

/// A plan and the names of the things in it.
#[derive(Clone, Copy, Debug)]
pub struct Things<'a> {
    pub plan: &'a Plan,
    pub names: &'a Names,
}

impl Things<'_> {
    /// The fact's name, or its number and what it relates.
    pub fn fact(&self, number: u8) -> String {
        if self.names.find("fact", number).is_some() {
            return format!("\"{}\"", self.names.of("fact", number));
        }
        match self.plan.fact(number).map(|(_, fact)| fact) {
            Some(Fact::Relation { family, tuple }) => {
                let family = self.names.of("family", *family);
                match tuple.is_empty() {
                    true => format!("fact {number}, {family}"),
                    false => {
                        let persons = self.names.persons(tuple.iter().copied());
                        format!("fact {number}, {family} of {persons}")
                    }
                }
            }
            _ => format!("fact {number}"),
        }
    }

    /// A rule of any sort.
    pub fn rule(&self, rule: Rule) -> String {
        match rule {
            Rule::Edge(number) => self.edge(number),
            Rule::Cut(number) => self.cut(number),
            Rule::Attachment(number) => self.attachment(number),
            Rule::Bar(number) => self.bar(number),
            Rule::Status(number) => self.status(number),
        }
    }

    fn citation(&self, citation: Citation) -> String {
        self.names.of("citation", citation.0)
    }

    fn named(&self, kind: &'static str, number: u8) -> Option<String> {
        self.names.find(kind, number)?;
        Some(format!("the {kind} \"{}\"", self.names.of(kind, number)))
    }

    pub fn edge(&self, number: u8) -> String {
        let numbered = || match self.plan.records().edges.get(usize::from(number)) {
            None => format!("edge {number}"),
            Some(edge) => {
                let (left, right) = (self.names.person(edge.left), self.names.person(edge.right));
                format!(
                    "edge {number} between {left} and {right} ({})",
                    self.citation(edge.citation)
                )
            }
        };
        self.named("edge", number).unwrap_or_else(numbered)
    }

    pub fn cut(&self, number: u8) -> String {
        let numbered = || match self.plan.records().cuts.get(usize::from(number)) {
            None => format!("cut {number}"),
            Some(cut) => {
                let members = self.names.persons(cut.members);
                format!("cut {number} of {members} ({})", self.citation(cut.citation))
            }
        };
        self.named("cut", number).unwrap_or_else(numbered)
    }

    pub fn attachment(&self, number: u8) -> String {
        let numbered = || match self.plan.records().attachments.get(usize::from(number)) {
            None => format!("attachment {number}"),
            Some(rule) => {
                let (members, anchor) =
                    (self.names.persons(rule.members), self.names.person(rule.anchor));
                format!(
                    "attachment {number} of {members} to {anchor} ({})",
                    self.citation(rule.citation)
                )
            }
        };
        self.named("attachment", number).unwrap_or_else(numbered)
    }

    pub fn bar(&self, number: u8) -> String {
        let numbered = || match self.plan.records().bars.get(usize::from(number)) {
            None => format!("bar {number}"),
            Some(bar) => {
                let members = self.names.persons(bar.members);
                format!("bar {number} of {members} ({})", self.citation(bar.citation))
            }
        };
        self.named("bar", number).unwrap_or_else(numbered)
    }

    pub fn status(&self, number: u8) -> String {
        let numbered = || match self.plan.records().statuses.get(usize::from(number)) {
            None => format!("status {number}"),
            Some(status) => {
                let person = self.names.person(status.person);
                format!("status {number} of {person} ({})", self.citation(status.citation))
            }
        };
        self.named("status", number).unwrap_or_else(numbered)
    }

    /// An unresolved decision of the plan, by its place among them.
    pub fn unresolved(&self, place: u8) -> String {
        let decision = self.plan.decisions().get(usize::from(place)).copied();
        decision.map_or_else(
            || format!("decision {place}"),
            |(cut, edge)| self.decision(place, cut.number, edge.number),
        )
    }

    /// Whether a cut overrides an edge, by the decision's place among the plan's unresolved ones.
    pub fn decision(&self, place: u8, cut: u8, edge: u8) -> String {
        let numbered =
            || format!("decision {place}, whether {} overrides {}", self.cut(cut), self.edge(edge));
        self.named("decision", place).unwrap_or_else(numbered)
    }
}
