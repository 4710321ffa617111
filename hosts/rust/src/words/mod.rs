//! What lines, events, circles, pools and refusals say, in sentences.
//!
//! A [`Paragraph`] is made of a [`Near`] and of names alone: of the plan, the heading, the constraints and what the case says of the facts that touch
//! the person's circle. Nothing that strangers answer can show in it. What belongs to the whole roster, [`officer`] tells.

mod alone;
mod apart;
mod constraints;
mod events;
mod facts;
mod fate;
mod households;
mod marks;
mod officer;
mod paragraph;
mod parted;
mod pools;
mod reasons;
mod stopped;
mod things;
mod touching;
mod waiting;

pub use events::event;
pub use fate::fate;
pub use households::units;
pub use officer::officer;
pub use paragraph::{Paragraph, explain, explain_person, paragraph};
pub use pools::{pools, unplaced};
pub use things::Things;
pub use touching::touching;

use std::collections::BTreeSet;

use crate::names::{Names, listed};
use crate::near::Near;

/// What a person's paragraph is made of, and of nothing else.
#[derive(Clone, Copy)]
pub(crate) struct Telling<'a> {
    pub(crate) near: &'a Near,
    pub(crate) names: &'a Names,
    pub(crate) things: Things<'a>,
}

impl<'a> Telling<'a> {
    fn of(near: &'a Near, names: &'a Names) -> Telling<'a> {
        Telling { near, names, things: Things { plan: near.plan(), names } }
    }
}

/// A count and its word: 1 unit, 2 units.
pub fn counted(count: u64, what: &str) -> String {
    if count == 1 { format!("1 {what}") } else { format!("{count} {what}s") }
}

/// A or B, where one of them is the case.
pub(crate) fn either(items: impl IntoIterator<Item = String>) -> String {
    let mut items: Vec<String> = items.into_iter().collect();
    match items.pop() {
        None => "nothing".to_string(),
        Some(last) if items.is_empty() => last,
        Some(last) => format!("{} or {last}", items.join(", ")),
    }
}

/// What is so in several worlds: A and B where both are in each, A or B where worlds differ; none where it is nothing in all.
pub(crate) fn across<T: Copy + Ord>(
    worlds: &[BTreeSet<T>],
    word: impl Fn(T) -> String,
) -> Option<String> {
    let some: Vec<&BTreeSet<T>> = worlds.iter().filter(|set| !set.is_empty()).collect();
    let all: BTreeSet<T> = some.iter().flat_map(|set| set.iter().copied()).collect();
    let alike = some.iter().all(|set| **set == all);
    let words = all.into_iter().map(word);
    match (some.is_empty(), alike) {
        (true, _) => None,
        (false, true) => Some(listed(words)),
        (false, false) => Some(either(words)),
    }
}
