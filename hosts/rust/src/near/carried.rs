//! Who has a mark that is carried along one open thing alone: once that has an answer, the mark is gone.

use crate::line::LineKind;
use crate::near::Near;
use crate::near::open::Variable;
use crate::near::spread::{Spread, seeds};
use crate::near::worlds::World;
use crate::persons::Persons;

impl Near {
    /// For each variable, those who have a mark in some world that does not reach them without its influence.
    pub(crate) fn carried(&self) -> &[(Variable, Persons)] {
        self.carried.get_or_init(|| {
            let (spread, variables) = (Spread::of(self), self.variables().iter());
            variables.map(|variable| (*variable, self.carried_along(&spread, *variable))).collect()
        })
    }

    fn carried_along(&self, spread: &Spread, variable: Variable) -> Persons {
        let without = spread.without(variable);
        let worlds = self.worlds().iter();
        worlds.fold(Persons::NOBODY, |all, world| {
            let kinds = [LineKind::Overlap, LineKind::Discretion].into_iter();
            kinds.fold(all, |all, kind| all.union(self.lost(&without, world, kind)))
        })
    }

    /// Who has a mark of a kind in a world that the spread does not explain.
    fn lost(&self, spread: &Spread, world: &World, kind: LineKind) -> Persons {
        let marked = world.shown(kind);
        if marked.is_empty() {
            return marked;
        }
        let seeds = seeds(world, kind).into_iter();
        let start = seeds.fold(Persons::NOBODY, |all, seed| all.union(self.seeded(seed)));
        marked.without(spread.reach(start))
    }
}
