//! The rules that name a decided person one by one: cuts, bars and statuses, what they do and why they do nothing.

use crate::line::{Line, Role};
use crate::names::listed;
use crate::near::Acts;
use crate::rules::{Rule, rules};
use crate::words::{Telling, either};

/// In which worlds something is so.
#[derive(Clone, Copy, Debug, PartialEq, Eq)]
pub(crate) enum When {
    Always,
    Sometimes,
    Never,
}

pub(crate) fn when(worlds: impl IntoIterator<Item = bool>) -> When {
    let (mut yes, mut no) = (false, false);
    worlds.into_iter().for_each(|is| if is { yes = true } else { no = true });
    match (yes, no) {
        (true, false) => When::Always,
        (true, true) => When::Sometimes,
        _ => When::Never,
    }
}

fn stands(mask: u64, number: u8) -> bool {
    mask.checked_shr(u32::from(number)).is_some_and(|rest| rest & 1 == 1)
}

/// Whether a rule acted: an edge froze, a cut was applied, an attachment, a bar or a status took effect.
pub(crate) fn acted(acts: &Acts, rule: Rule) -> bool {
    match rule {
        Rule::Edge(number) => stands(acts.frozen, number),
        Rule::Cut(number) => stands(acts.applied, number),
        Rule::Attachment(number) => stands(acts.attached, number),
        Rule::Bar(number) => stands(acts.barred, number),
        Rule::Status(number) => stands(acts.excluded, number),
    }
}

impl Telling<'_> {
    /// In which worlds a rule acts.
    pub(crate) fn acting(&self, rule: Rule) -> When {
        when(self.near.worlds().iter().map(|world| acted(&world.acts, rule)))
    }

    /// The rules of a sort that name a person.
    pub(crate) fn naming(&self, person: u8, sort: impl Fn(Rule) -> bool) -> Vec<Rule> {
        let all = rules(self.near.plan().records());
        let named = all.filter(|rule| rule.persons.holds(person) && sort(rule.rule));
        named.map(|rule| rule.rule).collect()
    }

    /// What cuts, bars and statuses do to a person with a block and a role.
    pub(crate) fn one_by_one(&self, line: &Line) -> Vec<String> {
        let mut said: Vec<String> = self.role(line).into_iter().collect();
        let cuts = self.naming(line.person, |rule| matches!(rule, Rule::Cut(_)));
        said.extend(cuts.into_iter().map(|cut| self.cut(cut, line)));
        said.extend(self.attached(line.person));
        let others =
            self.naming(line.person, |rule| matches!(rule, Rule::Bar(_) | Rule::Status(_)));
        said.extend(others.into_iter().filter_map(|rule| self.without_effect(rule, line)));
        said
    }

    /// By what somebody is barred or excluded.
    fn role(&self, line: &Line) -> Option<String> {
        let name = self.names.person(line.person);
        let (word, rules) = match line.role {
            Role::Barred => {
                ("barred", self.naming(line.person, |rule| matches!(rule, Rule::Bar(_))))
            }
            Role::Excluded => {
                ("excluded", self.naming(line.person, |rule| matches!(rule, Rule::Status(_))))
            }
            Role::Member | Role::None => return None,
        };
        let by = |wanted: When| {
            let found = rules.iter().copied().filter(move |rule| self.acting(*rule) == wanted);
            found.map(|rule| self.things.rule(rule)).collect::<Vec<String>>()
        };
        let (always, sometimes) = (by(When::Always), by(When::Sometimes));
        Some(match always.is_empty() {
            false => format!("{name} is {word} by {}.", listed(always)),
            true => {
                format!("{name} is {word}, as the open answers turn out, by {}.", either(sometimes))
            }
        })
    }

    /// The attachments that act on a person in every world; it may have been there already.
    fn attached(&self, person: u8) -> Vec<String> {
        let rules = self.near.plan().records().attachments.iter().zip(0..);
        let own = rules.filter(|(rule, _)| rule.members.holds(person) && rule.anchor != person);
        let acting = own
            .map(|(_, number)| Rule::Attachment(number))
            .filter(|rule| self.acting(*rule) == When::Always);
        let name = self.names.person(person);
        acting.map(|rule| format!("{name} is attached by {}.", self.things.rule(rule))).collect()
    }

    fn cut(&self, rule: Rule, line: &Line) -> String {
        let (name, cut) = (self.names.person(line.person), self.things.rule(rule));
        match (self.acting(rule), when(self.holding(rule))) {
            (When::Always, _) => format!("{name} is set apart by {cut}."),
            (When::Sometimes, _) => {
                format!("Whether {cut} acts hangs on what is open, and changes nothing for {name}.")
            }
            (When::Never, When::Never) => format!("{cut} does not act: {}.", self.why_not(rule)),
            (When::Never, When::Always) => format!("{cut} does not act: {}.", self.stopped(rule)),
            (When::Never, When::Sometimes) => {
                format!("{cut} does not act: where it holds, {}.", self.stopped(rule))
            }
        }
    }

    /// A bar or a status that names a person and does nothing to that person.
    fn without_effect(&self, rule: Rule, line: &Line) -> Option<String> {
        let (name, words) = (self.names.person(line.person), self.things.rule(rule));
        match (self.acting(rule), when(self.holding(rule)), rule) {
            (When::Never, When::Never, _) => {
                Some(format!("{words} does not act: {}.", self.why_not(rule)))
            }
            (When::Never, When::Always, Rule::Bar(_)) => {
                Some(format!("{words} spares {name}: all whom it names are attached."))
            }
            (When::Never, _, Rule::Bar(_)) => Some(format!(
                "{words} spares {name}: where it holds, all whom it names are attached."
            )),
            _ => None,
        }
    }
}
