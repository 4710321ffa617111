//! What can come about for a person, and what that hangs on.

use std::collections::BTreeSet;

use crate::line::{Line, LineKind};
use crate::near::Near;
use crate::near::open::Variable;
use crate::near::worlds::View;

/// The lines of a circle under each answer that a variable can have; none where no world would be admissible.
pub(crate) type IfAnswered = Vec<(Variable, bool, Option<Vec<Line>>)>;

/// What can come about for a person.
#[derive(Clone, Debug, PartialEq, Eq)]
pub struct Outcome {
    /// Each view that some world shows, once.
    pub possible: Vec<View>,
    /// Of what the line names as open: there are two worlds that differ in it alone and show the person something different.
    pub decides: Vec<Variable>,
    /// Not so, and yet an answer would change what can come about: a constraint ties it to others, or a mark is carried along it.
    pub moves: Vec<Variable>,
    /// No answer to it changes anything, as things stand.
    pub idle: Vec<Variable>,
    /// What can settle the line by one answer.
    pub settling: Vec<Settling>,
}

/// A variable of which an answer settles the line.
#[derive(Clone, Debug, PartialEq, Eq)]
pub struct Settling {
    pub variable: Variable,
    /// The answers that settle it.
    pub answers: Vec<bool>,
    /// Whether every answer does that can still come.
    pub always: bool,
}

impl Near {
    /// What can come about for a person of the circle.
    pub fn outcome(&self, person: u8) -> Option<Outcome> {
        let line = self.line(person)?;
        let possible = self.views(person, |_| true);
        let facts = line.open_facts().map(Variable::Fact);
        let open: Vec<Variable> =
            facts.chain(line.open_decisions().map(Variable::Decision)).collect();
        let (decides, rest): (Vec<Variable>, Vec<Variable>) =
            open.into_iter().partition(|variable| self.decides(*variable, person));
        let (moves, idle): (Vec<Variable>, Vec<Variable>) =
            rest.into_iter().partition(|variable| self.moves(*variable, line, &possible));
        let settling =
            decides.iter().chain(&moves).filter_map(|variable| self.settling(*variable, person));
        Some(Outcome {
            settling: settling.collect(),
            possible: possible.into_iter().collect(),
            decides,
            moves,
            idle,
        })
    }

    /// What the worlds show a person in which the variables have such values.
    fn views(&self, person: u8, values: impl Fn(&[bool]) -> bool) -> BTreeSet<View> {
        let worlds = self.worlds().iter().filter(|world| values(&world.values));
        worlds.filter_map(|world| world.view(person)).collect()
    }

    fn place(&self, variable: Variable) -> Option<usize> {
        self.variables().iter().position(|own| *own == variable)
    }

    fn decides(&self, variable: Variable, person: u8) -> bool {
        let Some(place) = self.place(variable) else {
            return false;
        };
        self.worlds().pairs(place).any(|(first, second)| first.view(person) != second.view(person))
    }

    fn moves(&self, variable: Variable, line: &Line, possible: &BTreeSet<View>) -> bool {
        let Some(place) = self.place(variable) else {
            return false;
        };
        let carried = self.carried().iter().find(|(own, _)| *own == variable);
        if carried.is_some_and(|(_, persons)| persons.holds(line.person)) {
            return true;
        }
        self.answers(variable).any(|(value, lines)| {
            let with = |values: &[bool]| values.get(place) == Some(&value);
            let then = lines.iter().find(|then| then.person == line.person);
            self.views(line.person, with) != *possible || then.map(View::of) != Some(View::of(line))
        })
    }

    /// The answers that a variable can still have, with the lines that they would lead to.
    fn answers(&self, variable: Variable) -> impl Iterator<Item = (bool, &Vec<Line>)> {
        let all = self.if_answered().iter().filter(move |(own, ..)| *own == variable);
        all.filter_map(|(_, value, lines)| Some((*value, lines.as_ref()?)))
    }

    fn settling(&self, variable: Variable, person: u8) -> Option<Settling> {
        let settles = |(_, lines): &(bool, &Vec<Line>)| {
            let line = lines.iter().find(|line| line.person == person);
            line.is_some_and(|line| line.kind == LineKind::Decided)
        };
        let always = self.answers(variable).all(|answer| settles(&answer));
        let answers: Vec<bool> =
            self.answers(variable).filter(settles).map(|(value, _)| value).collect();
        (!answers.is_empty()).then_some(Settling { variable, answers, always })
    }
}
