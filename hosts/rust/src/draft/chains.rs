//! Persons whom Base edges join, but not each with each. Where all of these edges hold and the heading has no base-chain citation, as in every
//! plan out of a table, step 2 of a world marks them for discretion.

use crate::limits;
use crate::persons::Persons;

/// A chain of Base edges.
#[derive(Clone, Copy, Debug, PartialEq, Eq, Hash)]
pub struct Chain {
    /// All whom it joins: three at least.
    pub persons: Persons,
    /// The first two of them without an edge of their own.
    pub apart: (u8, u8),
}

/// For each person that person and all whom an edge joins with them.
struct Near([Persons; limits::PERSONS]);

impl Near {
    fn of(edges: &[(u8, u8)]) -> Near {
        let around = |person: u8| {
            let ends = edges.iter().filter(|(left, right)| [*left, *right].contains(&person));
            let pairs =
                ends.map(|(left, right)| Persons::alone(*left).union(Persons::alone(*right)));
            pairs.fold(Persons::alone(person), Persons::union)
        };
        Near(std::array::from_fn(|person| u8::try_from(person).map_or(Persons::NOBODY, around)))
    }

    fn around(&self, person: u8) -> Persons {
        self.0.get(usize::from(person)).copied().unwrap_or_default()
    }

    /// All who are reached from a person.
    fn component(&self, person: u8) -> Persons {
        let mut all = Persons::alone(person);
        loop {
            let grown = all.iter().map(|person| self.around(person)).fold(all, Persons::union);
            if grown == all {
                return all;
            }
            all = grown;
        }
    }

    /// The component of a person where it is a chain.
    fn chain(&self, person: u8) -> Option<Chain> {
        let persons = self.component(person);
        let apart = persons.iter().find_map(|one| {
            let other = persons.without(self.around(one)).iter().next()?;
            Some((one, other))
        });
        apart.map(|apart| Chain { persons, apart })
    }
}

/// All of them, by their lowest persons.
pub(crate) fn chains(edges: &[(u8, u8)]) -> Vec<Chain> {
    let near = Near::of(edges);
    let chains = (0..).take(limits::PERSONS).filter_map(|person| {
        let chain = near.chain(person)?;
        (chain.persons.iter().next() == Some(person)).then_some(chain)
    });
    chains.collect()
}
