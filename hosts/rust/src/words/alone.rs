//! Why somebody is counted alone.

use std::collections::BTreeSet;

use crate::line::Line;
use crate::names::listed;
use crate::persons::Persons;
use crate::rules::{Rule, RuleOf, rules};
use crate::words::Telling;
use crate::words::apart::When;

impl Telling<'_> {
    /// Each edge and attachment that could have joined the person with somebody, and why it did not; nothing where a cut says it all.
    pub(crate) fn why_alone(&self, line: &Line) -> Vec<String> {
        let own = Persons::alone(line.person);
        let all = rules(self.near.plan().records());
        let cuts = all.filter(|rule| matches!(rule.rule, Rule::Cut(_)));
        if cuts.filter(|cut| cut.persons == own).any(|cut| self.acting(cut.rule) == When::Always) {
            return Vec::new();
        }
        let all = rules(self.near.plan().records());
        let with_others = all.filter(|rule| rule.persons.holds(line.person) && rule.persons != own);
        let mut why: Vec<String> = with_others
            .filter_map(|rule| {
                let other = rule.persons.without(own).iter().next()?;
                match rule.rule {
                    Rule::Edge(_) => Some(self.edge_apart(rule.rule, line.person, other)),
                    Rule::Attachment(_) => Some(self.attachment_apart(rule.rule)),
                    Rule::Cut(_) if self.acting(rule.rule) == When::Always => {
                        Some(self.cut_apart(&rule, line.person))
                    }
                    Rule::Cut(_) | Rule::Bar(_) | Rule::Status(_) => None,
                }
            })
            .collect();
        if why.is_empty() {
            why.push(self.unnamed(line.person));
        }
        why
    }

    /// Of somebody whom no edge and no attachment names: a plan that does not know of a person is not refused.
    fn unnamed(&self, person: u8) -> String {
        let name = self.names.person(person);
        match self.naming(person, |_| true).is_empty() {
            true => format!(
                "No rule of the plan names {name}; look whether the plan knows of everybody on the roster."
            ),
            false => format!("No edge and no attachment of the plan joins {name} with anyone."),
        }
    }

    /// An edge between the person and one other, and why it does not join them.
    fn edge_apart(&self, edge: Rule, person: u8, other: u8) -> String {
        let words = self.things.rule(edge);
        let holds = match self.acting(edge) {
            When::Never => return format!("{words} does not hold: {}.", self.why_not(edge)),
            When::Always => "holds",
            When::Sometimes => "holds by some of the open answers",
        };
        let parts = self.parting(edge, [person, other]);
        format!("{words} {holds}, but {parts}.")
    }

    /// A cut that has others as well, and by what these are gone.
    fn cut_apart(&self, cut: &RuleOf, person: u8) -> String {
        let others = cut.persons.without(Persons::alone(person));
        let parts = others.iter().map(|other| self.parting(cut.rule, [person, other]));
        let parts: BTreeSet<String> = parts.collect();
        format!("{} has others, too, but {}.", self.things.rule(cut.rule), listed(parts))
    }

    fn attachment_apart(&self, attachment: Rule) -> String {
        let words = self.things.rule(attachment);
        match self.acting(attachment) {
            When::Never => format!("{words} does not act: {}.", self.why_not(attachment)),
            When::Always => format!("{words} acts, but a later attachment parts them."),
            When::Sometimes => {
                format!(
                    "{words} acts by some of the open answers, but a later attachment parts them."
                )
            }
        }
    }
}
