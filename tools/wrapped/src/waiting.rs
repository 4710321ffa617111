//! What an outcome says of what is open, held to every world of the whole case.

use std::collections::BTreeSet;

use inputs::generate::Input;
use inputs::wire::{BLOCKED, Node, OVERRIDES, Plan, UNRESOLVED};
use lukhveri::near::{Outcome, Variable, View};
use lukhveri::{Answer, Line, LineKind};

/// The plan in which a variable has a value.
pub fn settled(plan: &Plan, variable: Variable, value: bool) -> Plan {
    let mut plan = plan.clone();
    match variable {
        Variable::Fact(fact) => {
            let nodes = plan.nodes.iter_mut().filter(|node| **node == Node::Fact(fact));
            nodes.for_each(|node| *node = Node::Literal(u8::from(value)));
        }
        Variable::Decision(place) => {
            let mut open: Vec<(usize, u8, &mut u8)> = Vec::new();
            for (number, cut) in plan.cuts.iter_mut().enumerate() {
                let entries = cut.decisions.iter_mut().flatten();
                open.extend(
                    entries
                        .filter(|entry| entry.1 == UNRESOLVED)
                        .map(|entry| (number, entry.0, &mut entry.1)),
                );
            }
            open.sort_by_key(|(cut, edge, _)| (*cut, *edge));
            *open[usize::from(place)].2 = if value { OVERRIDES } else { BLOCKED };
        }
    }
    plan
}

/// Every world of a case.
pub fn shown(plan: &[u8], case: &[u8], count: u64) -> Vec<Answer> {
    (0..count)
        .map(|world| lukhveri::show(plan, case, world).expect("an admissible world"))
        .collect()
}

fn view(world: &Answer, person: u8) -> Option<View> {
    world.line(person).map(View::of)
}

/// The worlds of a whole case with the values that make them.
pub struct Whole<'a> {
    pub input: &'a Input,
    pub worlds: &'a [Answer],
    pub values: Vec<Vec<(Variable, bool)>>,
}

/// What the case would be if a variable had a value.
struct Then {
    value: bool,
    line: Line,
    worlds: Vec<Answer>,
}

impl Whole<'_> {
    fn at(&self, world: usize, variable: Variable) -> Option<bool> {
        self.values[world].iter().find(|(own, _)| *own == variable).map(|(_, value)| *value)
    }

    /// Two worlds that differ in the variable alone show the person something different.
    fn decides(&self, variable: Variable, person: u8) -> bool {
        (0..self.worlds.len()).any(|world| {
            let mut other = self.values[world].clone();
            let own = other.iter_mut().filter(|(own, _)| *own == variable);
            own.for_each(|(_, value)| *value = !*value);
            let other = self.values.iter().position(|values| *values == other);
            other.is_some_and(|other| {
                view(&self.worlds[world], person) != view(&self.worlds[other], person)
            })
        })
    }

    /// Each answer that the variable has in some world, with what comes of it.
    fn answers(&self, variable: Variable, person: u8) -> Vec<Then> {
        let values: BTreeSet<bool> =
            (0..self.worlds.len()).filter_map(|world| self.at(world, variable)).collect();
        let then = |value: bool| {
            let plan = settled(&self.input.plan, variable, value).encode();
            let case = self.input.case.encode();
            let answer = lukhveri::answer(&plan, &case).expect("fewer worlds are answered");
            let line = *answer.line(person).expect("a line");
            Then { value, line, worlds: shown(&plan, &case, answer.worlds) }
        };
        values.into_iter().map(then).collect()
    }

    /// An answer changes what some world shows, or which views are left, or the line.
    fn changes(&self, variable: Variable, line: &Line) -> bool {
        let person = line.person;
        let views = |worlds: &mut dyn Iterator<Item = &Answer>| -> Vec<Option<View>> {
            worlds.map(|world| view(world, person)).collect()
        };
        let set = |views: &[Option<View>]| views.iter().copied().collect::<BTreeSet<_>>();
        let all = set(&views(&mut self.worlds.iter()));
        self.answers(variable, person).iter().any(|then| {
            let with = (0..self.worlds.len())
                .filter(|world| self.at(*world, variable) == Some(then.value));
            let before = views(&mut with.map(|world| &self.worlds[world]));
            let after = views(&mut then.worlds.iter());
            before != after || set(&after) != all || View::of(&then.line) != View::of(line)
        })
    }

    /// Whether each open thing stands where it belongs, and what settles the line does.
    pub fn outcome(&self, line: &Line, outcome: &Outcome) -> Result<(), String> {
        let wrong = |what: &str, variable: Variable| {
            Err(format!("person {}: {variable:?} is said to {what}", line.person))
        };
        let rest = outcome.moves.iter().chain(&outcome.idle);
        for (&variable, decides) in outcome
            .decides
            .iter()
            .zip(std::iter::repeat(true))
            .chain(rest.zip(std::iter::repeat(false)))
        {
            if self.decides(variable, line.person) != decides {
                return wrong(if decides { "decide" } else { "decide nothing" }, variable);
            }
        }
        if let Some(variable) = outcome.idle.iter().find(|own| self.changes(**own, line)) {
            return wrong("change nothing", *variable);
        }
        if let Some(variable) = outcome.moves.iter().find(|own| !self.changes(**own, line)) {
            return wrong("change something", *variable);
        }
        self.settling(line, outcome)
    }

    fn settling(&self, line: &Line, outcome: &Outcome) -> Result<(), String> {
        for &variable in outcome.decides.iter().chain(&outcome.moves) {
            let answers = self.answers(variable, line.person);
            let settle = |then: &&Then| then.line.kind == LineKind::Decided;
            let wanted: Vec<bool> = answers.iter().filter(settle).map(|then| then.value).collect();
            let found = outcome.settling.iter().find(|settling| settling.variable == variable);
            let told = found.map(|settling| settling.answers.clone()).unwrap_or_default();
            let always = found.is_some_and(|settling| settling.always);
            if told != wanted || always != (!wanted.is_empty() && wanted.len() == answers.len()) {
                return Err(format!("person {}: {wanted:?} settles, not {found:?}", line.person));
            }
        }
        Ok(())
    }
}
