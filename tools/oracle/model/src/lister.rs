//! The lister's text, as document 01 describes it, with Ticket 3 of document
//! 02 for its last row, both from their words.

use std::collections::BTreeMap;

use crate::fields::{DECIDED, Fields, ROLE_OPEN};
use crate::report::Outcome;
use crate::world::EXCLUDED;

/// The text of an outcome whose lines stand in this buffer.
pub fn text(outcome: &Outcome, lines: &[u8]) -> String {
    if outcome.refusal != 0 {
        return format!("refused {} {}\n", outcome.refusal, outcome.record);
    }
    let lines: Vec<Fields> = Fields::each(lines).take(outcome.lines as usize).collect();
    let mut rows = vec!["person kind role block".to_string()];
    rows.extend(lines.iter().map(row));
    rows.push(format!("units {}\n", households(&lines)));
    rows.join("\n")
}

fn row(line: &Fields) -> String {
    format!("{} {} {} {}", line.person, line.kind, line.role, persons(line.block))
}

fn persons(block: u64) -> String {
    let held = (0..64).filter(|person| block >> person & 1 == 1);
    let numbers: Vec<String> = held.map(|person: u8| person.to_string()).collect();
    match numbers.len() {
        0 => "-".to_string(),
        _ => numbers.join(","),
    }
}

/// Each block with the lines that have it.
pub fn blocks(lines: &[Fields]) -> BTreeMap<u64, Vec<Fields>> {
    let mut blocks: BTreeMap<u64, Vec<Fields>> = BTreeMap::new();
    for line in lines.iter().filter(|line| line.block != 0) {
        blocks.entry(line.block).or_default().push(*line);
    }
    blocks
}

/// "a block whose persons of kind 0 are all excluded, with no person of kind
/// 2, draws no service and is no household"
pub fn draws_no_service(persons: &[Fields]) -> bool {
    let mut decided = persons.iter().filter(|line| line.kind == DECIDED);
    let mut open = persons.iter().filter(|line| line.kind == ROLE_OPEN);
    decided.all(|line| line.role == EXCLUDED) && open.next().is_none()
}

/// "counts the other blocks only"
pub fn households(lines: &[Fields]) -> usize {
    let mut blocks = blocks(lines);
    blocks.retain(|_, persons| !draws_no_service(persons));
    blocks.len()
}
