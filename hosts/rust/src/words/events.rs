//! Events, in words.

use crate::event::{Event, Evidence};
use crate::names::{Names, listed};
use crate::plan::Plan;
use crate::words::Things;

/// What an event says, as a clause without a full stop.
pub fn event(plan: &Plan, names: &Names, event: &Event) -> String {
    let things = Things { plan, names };
    match *event {
        Event::Frozen { edge, .. } => format!("{} holds", things.edge(edge)),
        Event::Applied { cut, actor, evidence } => {
            format!("{} is made{}", things.cut(cut), asked(names, actor, evidence))
        }
        Event::Blocked { cut, edge, actor, evidence } => {
            let asked = asked(names, actor, evidence);
            format!("{} is blocked by {}{asked}", things.cut(cut), things.edge(edge))
        }
        Event::Overlap { earlier, later } => {
            format!("{} overlaps with {}", things.cut(earlier), things.cut(later))
        }
        Event::Attached { attachment, actor, evidence, .. } => {
            format!("{} acts{}", things.attachment(attachment), asked(names, Some(actor), evidence))
        }
        Event::Barred { bar } => format!("{} bars", things.bar(bar)),
        Event::Excluded { status, .. } => format!("{} excludes", things.status(status)),
        Event::Default { fact, actor, value, citation } => {
            let word = if value { "yes" } else { "no" };
            let (actor, citation) = (names.of("actor", actor), names.of("citation", citation));
            format!(
                "{} is taken as {word} by default, as {actor} has not said otherwise ({citation})",
                things.fact(fact)
            )
        }
        Event::Discretion { persons } => {
            format!("the chain of {} is left to discretion", names.persons(persons))
        }
    }
}

/// Whose matter it is, and the papers about it.
fn asked(names: &Names, actor: Option<u8>, evidence: Evidence) -> String {
    let papers: Vec<String> = evidence.iter().map(|number| names.of("evidence", number)).collect();
    match (actor, papers.is_empty()) {
        (None, _) => String::new(),
        (Some(actor), true) => {
            format!("; it is up to {}, and there is no paper", names.of("actor", actor))
        }
        (Some(actor), false) => {
            format!("; it is up to {}; papers on it: {}", names.of("actor", actor), listed(papers))
        }
    }
}
