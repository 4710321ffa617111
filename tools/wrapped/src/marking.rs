//! Where marks are said to come from, held to every world of the whole case.

use std::collections::BTreeSet;

use inputs::wire::{Plan, UNRESOLVED};
use lukhveri::near::{Link, Mark, Seed, Variable};
use lukhveri::{Answer, Event, LineKind, Rule};

use crate::strangers::touched;
use crate::waiting::Whole;

/// Whom a rule joins.
fn joined(plan: &Plan, rule: Rule) -> u64 {
    match rule {
        Rule::Edge(number) => {
            let edge = &plan.edges[usize::from(number)];
            1 << edge.left | 1 << edge.right
        }
        Rule::Cut(number) => plan.cuts[usize::from(number)].members,
        Rule::Attachment(number) => {
            let rule = &plan.attachments[usize::from(number)];
            rule.members | 1 << rule.anchor
        }
        Rule::Bar(number) => plan.bars[usize::from(number)].members,
        Rule::Status(_) => 0,
    }
}

fn all_joined(plan: &Plan) -> Vec<u64> {
    let edges = (0..plan.edges.len() as u8).map(Rule::Edge);
    let cuts = (0..plan.cuts.len() as u8).map(Rule::Cut);
    let attachments = (0..plan.attachments.len() as u8).map(Rule::Attachment);
    let bars = (0..plan.bars.len() as u8).map(Rule::Bar);
    let all = edges.chain(cuts).chain(attachments).chain(bars);
    all.map(|rule| joined(plan, rule)).collect()
}

fn close(sets: &[u64], start: u64) -> u64 {
    let next = sets.iter().filter(|set| **set & start != 0).fold(start, |all, set| all | set);
    if next == start { start } else { close(sets, next) }
}

impl Whole<'_> {
    fn influence(&self, variable: Variable) -> u64 {
        let (plan, case) = (&self.input.plan, &self.input.case);
        let start = match variable {
            Variable::Fact(fact) => touched(plan, case)[usize::from(fact)],
            Variable::Decision(place) => {
                let cuts = plan.cuts.iter().enumerate();
                let mut open: Vec<(usize, u8)> = cuts
                    .flat_map(|(number, cut)| {
                        let entries = cut.decisions.iter().flatten();
                        let own = entries.filter(|(_, said)| *said == UNRESOLVED);
                        own.map(move |(edge, _)| (number, *edge))
                    })
                    .collect();
                open.sort();
                let (cut, edge) = open[usize::from(place)];
                plan.cuts[cut].members | joined(plan, Rule::Edge(edge))
            }
        };
        close(&all_joined(plan), start)
    }

    fn seeds(&self, world: &Answer, kind: LineKind) -> BTreeSet<Seed> {
        let seeds = world.events.iter().filter_map(|event| match *event {
            Event::Overlap { earlier, later } if kind == LineKind::Overlap => {
                Some(Seed::Overlap(earlier, later))
            }
            Event::Discretion { persons } if kind == LineKind::Discretion => {
                Some(Seed::Chain(persons))
            }
            _ => None,
        });
        seeds.collect()
    }

    fn seeded(&self, seed: Seed) -> u64 {
        let members = |cut: u8| self.input.plan.cuts[usize::from(cut)].members;
        match seed {
            Seed::Overlap(earlier, later) => members(earlier) | members(later),
            Seed::Chain(persons) => persons.mask(),
        }
    }

    /// Everyone whom a mark reaches.
    fn reached(&self, seed: Seed) -> u64 {
        let open = self.values.first().into_iter().flatten();
        let influence: Vec<u64> = open.map(|(own, _)| self.influence(*own)).collect();
        close(&all_joined(&self.input.plan), close(&influence, self.seeded(seed)))
    }

    /// The told marks are those that reach the person in a world that shows the kind, each along a way that there is.
    pub fn marks(&self, person: u8, kind: LineKind, told: &[Mark]) -> Result<(), String> {
        let shows = |world: &&Answer| world.line(person).is_some_and(|line| line.kind == kind);
        let worlds = self.worlds.iter().filter(shows);
        let seeds: BTreeSet<Seed> = worlds.flat_map(|world| self.seeds(world, kind)).collect();
        let reaching = seeds.into_iter().filter(|seed| self.reached(*seed) >> person & 1 == 1);
        let found: BTreeSet<Seed> = told.iter().map(|mark| mark.seed).collect();
        let ways = told.iter().all(|mark| self.way(mark, person));
        match reaching.collect::<BTreeSet<Seed>>() == found && ways {
            true => Ok(()),
            false => Err(format!("person {person}: other marks than {told:?}")),
        }
    }

    /// Open things before rules, each holding somebody whom the one before it reaches.
    fn way(&self, mark: &Mark, person: u8) -> bool {
        let (mut at, mut rules, mut is_one) = (self.seeded(mark.seed), false, true);
        for link in &mark.links {
            let next = match *link {
                Link::Variable(variable) => {
                    let mut open = self.values.first().into_iter().flatten();
                    is_one &= !rules && open.any(|(own, _)| *own == variable);
                    self.influence(variable)
                }
                Link::Rule(rule) => {
                    rules = true;
                    joined(&self.input.plan, rule)
                }
            };
            is_one &= next & at != 0;
            at = next;
        }
        is_one && at >> person & 1 == 1
    }
}
