//! Persons who are marked: by which cuts or which chain, and along what it reaches them.

use crate::line::LineKind;
use crate::names::listed;
use crate::near::{Link, Mark, Seed};
use crate::persons::Persons;
use crate::words::Telling;

/// Without chains that hold another one which is as near: a chain that open edges make longer is another one for each answer.
fn smallest(mut marks: Vec<Mark>) -> Vec<Mark> {
    marks.sort_by_key(|mark| chain(mark).count());
    let mut told: Vec<Mark> = Vec::new();
    for mark in marks {
        let longer = |other: &Mark| {
            chain(other).without(chain(&mark)).is_empty() && other.links.len() <= mark.links.len()
        };
        if !told.iter().any(longer) {
            told.push(mark);
        }
    }
    told.sort();
    told
}

fn chain(mark: &Mark) -> Persons {
    match mark.seed {
        Seed::Chain(persons) => persons,
        Seed::Overlap(..) => Persons::NOBODY,
    }
}

impl Telling<'_> {
    /// Whether a person has a mark of this kind in every world.
    fn always(&self, person: u8, kind: LineKind) -> bool {
        let mut views = self.near.worlds().iter().map(|world| world.view(person));
        views.all(|view| view.is_some_and(|view| view.kind == kind))
    }

    /// The sentences about a person whose line has kind 3.
    pub(crate) fn overlap(&self, person: u8) -> Vec<String> {
        let name = self.names.person(person);
        let when = match self.always(person, LineKind::Overlap) {
            true => "cuts overlap",
            false => "by some of the open answers, cuts overlap",
        };
        let marks = self.near.marks(person, LineKind::Overlap);
        let mut said = vec![format!("Nothing is decided of {name}: {when}.")];
        said.extend(marks.iter().map(|mark| self.mark(mark, person)));
        said.push("The plan can say which of two cuts goes first.".to_string());
        said
    }

    /// The sentences about a person whose line has kind 4.
    pub(crate) fn discretion(&self, person: u8) -> Vec<String> {
        let name = self.names.person(person);
        let when = match self.always(person, LineKind::Discretion) {
            true => "",
            false => ", by some of the open answers",
        };
        let marks = smallest(self.near.marks(person, LineKind::Discretion));
        let mut said = vec![format!("{name} is left to discretion{when}.")];
        said.extend(marks.iter().map(|mark| self.mark(mark, person)));
        said.push("As things stand, an officer has to decide, unless the plan names a paragraph by which chains are enough.".to_string());
        said
    }

    fn mark(&self, mark: &Mark, person: u8) -> String {
        let what = match mark.seed {
            Seed::Overlap(earlier, later) => {
                format!("{} overlaps with {}", self.things.cut(earlier), self.things.cut(later))
            }
            Seed::Chain(persons) => format!(
                "{} hang together by a chain of Base edges in which not every two are joined by one, and the plan has no citation for chains",
                self.names.persons(persons)
            ),
        };
        let what = match mark.always {
            true => what,
            false => format!("by some of the open answers, {what}"),
        };
        match mark.links.is_empty() {
            true => format!("{what}."),
            false => {
                let links = listed(mark.links.iter().map(|link| self.link(*link)));
                format!("{what}; this reaches {} through {links}.", self.names.person(person))
            }
        }
    }

    fn link(&self, link: Link) -> String {
        match link {
            Link::Rule(rule) => self.things.rule(rule),
            Link::Variable(variable) => format!("the open question of {}", self.called(variable)),
        }
    }
}
