//! Names for what is not there: mostly a wrong number in names.txt.

use crate::case_records::CaseRecords;
use crate::names::{Entry, Names};
use crate::persons::Persons;
use crate::plan::Plan;
use crate::records::{Fact, Records};

impl Names {
    /// One sentence for each name of something that neither plan nor case has. Without a case nothing is said of persons and evidence.
    pub fn warnings(&self, plan: &Plan, case: Option<&CaseRecords>) -> Vec<String> {
        let entries = self.entries().into_iter();
        let wrong = entries.filter_map(|entry| Some((missing(&entry, plan, case)?, entry)));
        wrong
            .map(|(why, Entry { kind, number, name, line })| {
                format!("line {line}: {kind} {number} is named {name}, but {why}")
            })
            .collect()
    }
}

/// Why there is no such thing; none if there is.
fn missing(entry: &Entry, plan: &Plan, case: Option<&CaseRecords>) -> Option<String> {
    let (records, number) = (plan.records(), entry.number);
    let past = |count: usize, what: &str| {
        let past = usize::from(number) >= count;
        past.then(|| match count {
            0 => format!("the plan has no {what}"),
            1 => format!("the plan has {what} 0 alone"),
            _ => format!("the last {what} of the plan is {what} {}", count - 1),
        })
    };
    let absent = |there: bool, why: &str| (!there).then(|| why.to_string());
    match entry.kind {
        "person" => {
            let there = persons(records).holds(number) || case?.roster.holds(number);
            absent(there, "is neither on the roster nor named in the plan")
        }
        "fact" => past(records.facts.len(), "fact"),
        "decision" => past(plan.decisions().len(), "unresolved decision"),
        "edge" => past(records.edges.len(), "edge"),
        "cut" => past(records.cuts.len(), "cut"),
        "attachment" => past(records.attachments.len(), "attachment"),
        "bar" => past(records.bars.len(), "bar"),
        "status" => past(records.statuses.len(), "status"),
        "citation" => absent(citations(records).contains(&number), "no rule cites it"),
        "actor" => absent(actors(records).contains(&number), "no rule of the plan has this actor"),
        "evidence" => absent(papers(case?).contains(&number), "the case has no such evidence"),
        "family" => {
            let told =
                case.is_some_and(|case| case.families.iter().any(|told| told.number == number));
            absent(
                told || families(records).contains(&number),
                "no fact of the plan is of this family",
            )
        }
        _ => None,
    }
}

/// Everyone in a rule or in a tuple.
fn persons(records: &Records) -> Persons {
    let tuples = records.facts.iter().map(|fact| match fact {
        Fact::Boolean => Persons::NOBODY,
        Fact::Relation { tuple, .. } => Persons::of(tuple).unwrap_or(Persons::NOBODY),
    });
    tuples.fold(records.rule_persons(), Persons::union)
}

fn citations(records: &Records) -> Vec<u8> {
    let chain = records.chain.iter().copied();
    let edges = records.edges.iter().map(|edge| edge.citation);
    let cuts = records.cuts.iter().map(|cut| cut.citation);
    let rules = records.attachments.iter().map(|rule| rule.citation);
    let bars = records.bars.iter().map(|bar| bar.citation);
    let statuses = records.statuses.iter().map(|status| status.citation);
    let elections = records.elections().map(|election| election.citation);
    let rules = chain.chain(edges).chain(cuts).chain(rules).chain(bars).chain(statuses);
    rules.chain(elections).map(|citation| citation.0).collect()
}

fn actors(records: &Records) -> Vec<u8> {
    let rules = records.attachments.iter().map(|rule| rule.actor);
    rules.chain(records.elections().map(|election| election.actor)).map(|actor| actor.0).collect()
}

fn families(records: &Records) -> Vec<u8> {
    let families = records.facts.iter().filter_map(|fact| match fact {
        Fact::Boolean => None,
        Fact::Relation { family, .. } => Some(*family),
    });
    families.collect()
}

fn papers(case: &CaseRecords) -> Vec<u8> {
    let families = case.families.iter().filter_map(|family| family.complete);
    let unknown = case.booleans.iter().filter_map(|boolean| boolean.unknown);
    let observed = case.booleans.iter().flat_map(|boolean| &boolean.observations);
    let observed = observed.map(|(_, paper)| *paper);
    let related = case.relations.iter().map(|relation| relation.evidence);
    let all = case.complete.into_iter().chain(families).chain(unknown);
    all.chain(observed).chain(related).collect()
}
