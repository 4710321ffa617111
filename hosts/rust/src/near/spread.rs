//! Where a mark comes from, and along what it reaches a person.

use std::collections::btree_map::Entry;
use std::collections::{BTreeMap, BTreeSet, VecDeque};

use crate::line::LineKind;
use crate::near::Near;
use crate::near::open::Variable;
use crate::near::worlds::World;
use crate::persons::Persons;
use crate::rules::{Rule, RuleOf, close, joined_sets, rules};

/// What marks persons.
#[derive(Clone, Copy, Debug, PartialEq, Eq, PartialOrd, Ord)]
pub enum Seed {
    /// Two cuts that overlap.
    Overlap(u8, u8),
    /// Persons who hang together by a chain of Base edges.
    Chain(Persons),
}

/// What carries a mark on from one person to another.
#[derive(Clone, Copy, Debug, PartialEq, Eq, PartialOrd, Ord)]
pub enum Link {
    /// An open fact or decision whose influence holds both.
    Variable(Variable),
    /// A rule that names both.
    Rule(Rule),
}

/// A mark that reaches a person.
#[derive(Clone, Debug, PartialEq, Eq, PartialOrd, Ord)]
pub struct Mark {
    pub seed: Seed,
    /// From the seed to the person; none where the person is in the seed.
    pub links: Vec<Link>,
    /// Whether the seed marks in every world, a chain by itself or as part of a longer one.
    pub always: bool,
}

/// Marks spread over influence first, over rules afterwards.
#[derive(Clone, Copy, Debug, PartialEq, Eq, PartialOrd, Ord)]
enum Phase {
    Influence,
    Rules,
}

type State = (Phase, u8);

impl Near {
    /// The marks of a kind, overlap or discretion, that reach a person in some world.
    pub fn marks(&self, person: u8, kind: LineKind) -> Vec<Mark> {
        let marked = |world: &&World| world.view(person).is_some_and(|view| view.kind == kind);
        let seeds_of = |world: &World| seeds(world, kind);
        let own: BTreeSet<Seed> = self.worlds().iter().filter(marked).flat_map(seeds_of).collect();
        let always = |seed: Seed| self.worlds().iter().all(|world| marks_in(world, seed));
        let ways = Spread::of(self).ways(person);
        let reaching = own.into_iter().filter_map(|seed| {
            let links = ways.from(self.seeded(seed))?;
            Some(Mark { seed, links, always: always(seed) })
        });
        reaching.collect()
    }

    /// The persons of a seed.
    pub fn seeded(&self, seed: Seed) -> Persons {
        let cuts = &self.plan().records().cuts;
        let members =
            |number: u8| cuts.get(usize::from(number)).map_or(Persons::NOBODY, |cut| cut.members);
        match seed {
            Seed::Overlap(earlier, later) => members(earlier).union(members(later)),
            Seed::Chain(persons) => persons,
        }
    }

    /// The persons whom a variable touches: those of its fact, or the cut's members and the edge's ends.
    fn touched(&self, variable: Variable) -> Persons {
        match variable {
            Variable::Fact(fact) => {
                let own = self.touching().find(|touching| touching.fact == fact);
                own.map_or(Persons::NOBODY, |touching| touching.persons)
            }
            Variable::Decision(place) => self.decision_persons(place),
        }
    }

    fn decision_persons(&self, place: u8) -> Persons {
        let records = self.plan().records();
        let named = self.decision(place).and_then(|(cut, edge)| {
            let cut = records.cuts.get(usize::from(cut))?;
            let edge = records.edges.get(usize::from(edge))?;
            Some(cut.members.union(edge.ends()))
        });
        named.unwrap_or(Persons::NOBODY)
    }
}

/// What marks by a kind in a world.
pub(super) fn seeds(world: &World, kind: LineKind) -> Vec<Seed> {
    if kind == LineKind::Overlap {
        world.acts.overlaps.iter().map(|&(earlier, later)| Seed::Overlap(earlier, later)).collect()
    } else {
        world.acts.chains.iter().map(|&chain| Seed::Chain(chain)).collect()
    }
}

/// Whether a seed marks in a world; a chain also as part of a longer one.
fn marks_in(world: &World, seed: Seed) -> bool {
    match seed {
        Seed::Overlap(earlier, later) => world.acts.overlaps.contains(&(earlier, later)),
        Seed::Chain(chain) => {
            world.acts.chains.iter().any(|longer| chain.without(*longer).is_empty())
        }
    }
}

/// What marks go along.
pub(super) struct Spread {
    influence: Vec<(Variable, Persons)>,
    rules: Vec<(Rule, Persons)>,
}

impl Spread {
    pub(super) fn of(near: &Near) -> Spread {
        let records = near.plan().records();
        let sets = joined_sets(records);
        let influence = near
            .variables()
            .iter()
            .map(|&variable| (variable, close(&sets, near.touched(variable))));
        let joining = rules(records).filter(RuleOf::joins);
        let rules = joining.map(|rule| (rule.rule, rule.persons)).collect();
        Spread { influence: influence.collect(), rules }
    }

    /// As if a variable had an answer.
    pub(super) fn without(&self, variable: Variable) -> Spread {
        let rest = self.influence.iter().filter(|(own, _)| *own != variable);
        Spread { influence: rest.copied().collect(), rules: self.rules.clone() }
    }

    /// Everyone whom marks reach from these persons.
    pub(super) fn reach(&self, seed: Persons) -> Persons {
        let influence: Vec<Persons> = self.influence.iter().map(|(_, persons)| *persons).collect();
        let rules: Vec<Persons> = self.rules.iter().map(|(_, persons)| *persons).collect();
        close(&rules, close(&influence, seed))
    }

    /// The shortest ways on which a mark comes to a person, found backwards from there.
    fn ways(&self, person: u8) -> Ways {
        let mut ways = Ways { toward: BTreeMap::new() };
        let mut queue = VecDeque::new();
        for phase in [Phase::Rules, Phase::Influence] {
            ways.toward.insert((phase, person), (0, None));
            queue.push_back((phase, person));
        }
        while let Some(state) = queue.pop_front() {
            let length = ways.toward.get(&state).map_or(0, |(length, _)| length + 1);
            for (before, link) in self.before(state) {
                if let Entry::Vacant(place) = ways.toward.entry(before) {
                    place.insert((length, Some((link, state))));
                    queue.push_back(before);
                }
            }
        }
        ways
    }

    /// From whom a mark comes to somebody in one step. Whoever is reached over influence is reached for the rules, too.
    fn before(&self, (phase, at): State) -> Vec<(State, Link)> {
        let sets = self.influence.iter().filter(|(_, persons)| persons.holds(at));
        let influence = sets.flat_map(|&(variable, persons)| {
            persons.iter().map(move |from| ((Phase::Influence, from), Link::Variable(variable)))
        });
        if phase == Phase::Influence {
            return influence.collect();
        }
        let rules = self.rules.iter().filter(|(_, persons)| persons.holds(at));
        let rules = rules.flat_map(|&(rule, persons)| {
            persons.iter().map(move |from| ((Phase::Rules, from), Link::Rule(rule)))
        });
        rules.chain(influence).collect()
    }
}

/// For everyone from whom a mark comes to a person: over how many links, and the first of them.
struct Ways {
    toward: BTreeMap<State, (usize, Option<(Link, State)>)>,
}

impl Ways {
    /// Fewest links from somebody of the seed; none where the mark does not reach the person.
    fn from(&self, seed: Persons) -> Option<Vec<Link>> {
        let phases = [Phase::Rules, Phase::Influence];
        let starts =
            phases.into_iter().flat_map(|phase| seed.iter().map(move |start| (phase, start)));
        let reaching = starts.filter_map(|start| Some((self.toward.get(&start)?.0, start)));
        let (_, mut at) = reaching.min_by_key(|(length, _)| *length)?;
        let mut links = Vec::new();
        while let Some((_, Some((link, next)))) = self.toward.get(&at) {
            links.push(*link);
            at = *next;
        }
        Some(links)
    }
}
