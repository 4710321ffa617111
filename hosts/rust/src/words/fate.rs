//! What a world shows of a person, in a few words.

use crate::line::{LineKind, Role};
use crate::names::Names;
use crate::near::View;
use crate::persons::Persons;

/// With whom, in which role, or which mark.
pub fn fate(person: u8, view: &View, names: &Names) -> String {
    let own = Persons::of(&[person]).unwrap_or(Persons::NOBODY);
    let others = view.block.without(own);
    let with = match view.kind {
        LineKind::Overlap => return "undecided, as cuts overlap".to_string(),
        LineKind::Discretion => return "left to discretion".to_string(),
        _ if others.is_empty() => "alone".to_string(),
        _ => format!("with {}", names.persons(others)),
    };
    match view.role {
        Role::Barred => format!("barred, {with}"),
        Role::Excluded => format!("excluded, {with}"),
        Role::Member | Role::None => with,
    }
}
