//! Why a fact touches somebody, in words.

use crate::names::Names;
use crate::near::{Touching, Why};
use crate::plan::Plan;
use crate::words::Things;

/// Each reason for which a fact touches its persons, as a clause.
pub fn touching(plan: &Plan, names: &Names, fact: &Touching) -> Vec<String> {
    let things = Things { plan, names };
    let why = fact.why.iter().filter_map(|why| match *why {
        Why::Names(persons) if persons.is_empty() => None,
        Why::Names(persons) => Some(format!("it is about {}", names.persons(persons))),
        Why::Asked(rule, _) => Some(format!("{} asks it", things.rule(rule))),
        Why::Constraint(number) => Some(format!(
            "constraint {number} of the case uses it, and so it touches the whole roster"
        )),
    });
    why.collect()
}
