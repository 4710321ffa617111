//! What is odd in a table that is accepted.

use std::fmt;

use super::chains::{Chain, chains};
use super::rows::{Field, Row, Rows};
use super::rule::Kind;
use crate::names::listed;

/// What is accepted and seldom meant.
#[derive(Clone, Copy, Debug, PartialEq, Eq, Hash)]
pub enum Note {
    /// There is no row below the header.
    NoRules,
    /// An edge from somebody to the same person.
    SelfEdge { row: usize },
    /// A row that says what an earlier one says.
    Repeated { row: usize, earlier: usize },
    /// An edge that an earlier row has with left and right exchanged.
    Turned { row: usize, earlier: usize },
    /// Persons whom base joins, but not each with each.
    Chain(Chain),
}

impl Note {
    /// The row that it is about; none where it is the table.
    pub fn row(&self) -> Option<usize> {
        match self {
            Note::NoRules | Note::Chain(_) => None,
            Note::SelfEdge { row } | Note::Repeated { row, .. } | Note::Turned { row, .. } => {
                Some(*row)
            }
        }
    }
}

impl fmt::Display for Note {
    fn fmt(&self, to: &mut fmt::Formatter) -> fmt::Result {
        match self {
            Note::NoRules => write!(to, "the table has no rules"),
            Note::SelfEdge { row } => {
                write!(to, "row {row} has one person at both ends, so that it joins nobody")
            }
            Note::Repeated { row, earlier } => write!(to, "row {row} says what row {earlier} says"),
            Note::Turned { row, earlier } => {
                write!(to, "row {row} says what row {earlier} says, with left and right exchanged")
            }
            Note::Chain(Chain { persons, apart: (one, other) }) => {
                let persons = listed(persons.iter().map(|person| person.to_string()));
                write!(
                    to,
                    "base joins persons {persons}, but no base row has {one} and {other}: "
                )?;
                write!(to, "a mere chain, which is left to discretion")
            }
        }
    }
}

/// What a row says: kind, persons and citation.
fn said(row: &Row) -> Option<[&[u8]; 4]> {
    let fields: Vec<&[u8]> = row.fields.iter().map(|field| field.bytes.as_slice()).collect();
    fields.try_into().ok()
}

fn is_self_edge(row: &Row) -> bool {
    said(row).is_some_and(|[_, left, right, _]| left == right)
}

/// The first of the rows before it that says the same, or, of an edge, the same with its ends exchanged.
fn repeated(rules: &[(usize, Row)], place: usize) -> Option<Note> {
    let (row, rule) = rules.get(place)?;
    let [kind, left, right, citation] = said(rule)?;
    let earlier = |wanted: [&[u8]; 4]| {
        let mut before = rules.iter().take(place);
        before.find(|(_, other)| said(other) == Some(wanted)).map(|(earlier, _)| *earlier)
    };
    let same = earlier([kind, left, right, citation]);
    let turned = || earlier([kind, right, left, citation]);
    let repeated = same.map(|earlier| Note::Repeated { row: *row, earlier });
    repeated.or_else(|| turned().map(|earlier| Note::Turned { row: *row, earlier }))
}

/// The two persons of a row that says base.
fn base(row: &Row) -> Option<(u8, u8)> {
    let person = |field: &Field| field.text().parse().ok();
    match row.fields.as_slice() {
        [kind, left, right, _] if Kind::of(kind) == Some(Kind::Base) => {
            Some((person(left)?, person(right)?))
        }
        _ => None,
    }
}

/// What is odd in an accepted table, by its rows, and then what is odd in them together. Each of them is a rule all the same.
pub fn notes(table: &[u8]) -> Vec<Note> {
    let rules: Vec<(usize, Row)> = Rows::of(table).enumerate().skip(1).collect();
    if rules.is_empty() {
        return vec![Note::NoRules];
    }
    let mut notes = Vec::new();
    for (place, (row, rule)) in rules.iter().enumerate() {
        if is_self_edge(rule) {
            notes.push(Note::SelfEdge { row: *row });
        }
        notes.extend(repeated(&rules, place));
    }
    let edges: Vec<(u8, u8)> = rules.iter().filter_map(|(_, rule)| base(rule)).collect();
    notes.extend(chains(&edges).into_iter().map(Note::Chain));
    notes
}
