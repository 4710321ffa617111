//! What belongs to the whole roster: for officers, not for families.

use crate::line::LineKind;
use crate::names::{Names, sentence};
use crate::operations::Answer;
use crate::plan::Plan;
use crate::words::{counted, event, households};

/// The counts of an answer, which units are no households, and all events below a heading.
pub fn officer(plan: &Plan, answer: &Answer, names: &Names) -> Vec<String> {
    let mut said = vec![summary(answer)];
    said.extend(households::none(answer, names));
    let heading = match (answer.events.is_empty(), answer.worlds) {
        (true, _) => "There are no events.",
        (false, 1) => "Events:",
        (false, _) => "Events, each of some world:",
    };
    said.push(heading.to_string());
    let events = answer.events.iter().map(|found| event(plan, names, found));
    said.extend(events.map(|clause| format!("  {}.", sentence(&clause))));
    said
}

fn summary(answer: &Answer) -> String {
    let lines = &answer.lines;
    let open = lines.iter().filter(|line| line.kind != LineKind::Decided).count();
    let (units, households) = (answer.units().len() as u64, answer.households().len() as u64);
    let persons = counted(lines.len() as u64, "person");
    let (units, worlds) = (households::units(units, households), counted(answer.worlds, "world"));
    format!("{persons}, {open} of them not decided; {units}; {worlds}.")
}
