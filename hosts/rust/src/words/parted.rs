//! By what two persons are parted whom an edge or a cut joins.

use std::collections::BTreeSet;

use crate::near::Acts;
use crate::persons::Persons;
use crate::records::Attachment;
use crate::rules::{Rule, close};
use crate::words::apart::acted;
use crate::words::{Telling, across};

impl Telling<'_> {
    /// In each world in which the rule acts, applied cuts that have one of the two; else the attachment that parted them last.
    pub(crate) fn parting(&self, rule: Rule, both: [u8; 2]) -> String {
        let worlds = self.near.worlds().iter().filter(|world| acted(&world.acts, rule));
        let parting: Vec<BTreeSet<Rule>> = worlds
            .map(|world| match self.cuts_between(&world.acts, both) {
                cuts if cuts.is_empty() => {
                    self.last_between(&world.acts, both).into_iter().collect()
                }
                cuts => cuts,
            })
            .collect();
        across(&parting, |rule| self.parts(rule, both)).unwrap_or_else(|| "nothing".to_string())
    }

    fn cuts_between(&self, acts: &Acts, [one, two]: [u8; 2]) -> BTreeSet<Rule> {
        let cuts = self.near.plan().records().cuts.iter().zip(0..);
        let cuts = cuts.filter(|(cut, _)| cut.members.parts(one, two));
        cuts.map(|(_, number)| Rule::Cut(number)).filter(|cut| acted(acts, *cut)).collect()
    }

    /// The units before attachments, told by their lowest persons: applied cuts, and those whom edges join beside them.
    fn units(&self, acts: &Acts) -> [u8; 64] {
        let records = self.near.plan().records();
        let cuts =
            records.cuts.iter().zip(0..).filter(|(_, number)| acted(acts, Rule::Cut(*number)));
        let mut sets: Vec<Persons> = cuts.map(|(cut, _)| cut.members).collect();
        let cut = sets.iter().fold(Persons::NOBODY, |all, set| all.union(*set));
        let edges = records.edges.iter().zip(0..);
        let frozen = edges.filter(|(_, number)| acted(acts, Rule::Edge(*number)));
        sets.extend(frozen.map(|(edge, _)| edge.ends()).filter(|ends| !ends.meets(cut)));
        std::array::from_fn(|person| {
            let person = person as u8;
            close(&sets, Persons::alone(person)).iter().next().unwrap_or(person)
        })
    }

    /// The last attachment that took one of two persons out of the other's unit.
    fn last_between(&self, acts: &Acts, [one, two]: [u8; 2]) -> Option<Rule> {
        let mut units = self.units(acts);
        let (mut last, mut together) = (None, true);
        for (rule, number) in self.near.plan().records().attachments.iter().zip(0..) {
            if acted(acts, Rule::Attachment(number)) {
                attach(&mut units, rule);
            }
            let after = units.get(usize::from(one)) == units.get(usize::from(two));
            last = if together && !after { Some(Rule::Attachment(number)) } else { last };
            together = after;
        }
        last
    }

    fn parts(&self, rule: Rule, [one, two]: [u8; 2]) -> String {
        let (records, words) = (self.near.plan().records(), self.things.rule(rule));
        let number = usize::from(rule.number());
        let members = match rule {
            Rule::Cut(_) => records.cuts.get(number).map(|cut| cut.members),
            _ => records.attachments.get(number).map(|rule| rule.members),
        };
        let taken = if members.is_some_and(|members| members.holds(one)) { one } else { two };
        let name = self.names.person(taken);
        match rule {
            Rule::Cut(_) => format!("{name} is set apart by {words}"),
            _ => format!("{words} moves {name} away"),
        }
    }
}

/// The members go to where the anchor is.
fn attach(units: &mut [u8; 64], rule: &Attachment) {
    let Some(unit) = units.get(usize::from(rule.anchor)).copied() else {
        return;
    };
    for member in rule.members {
        units.iter_mut().skip(usize::from(member)).take(1).for_each(|own| *own = unit);
    }
}
