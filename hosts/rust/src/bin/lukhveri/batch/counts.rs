//! Persons, units and households, counted.

use lukhveri::Answered;

/// How many there are in the answer of a case, or in those of several.
#[derive(Clone, Copy, Debug, Default, PartialEq, Eq)]
pub struct Counts {
    pub persons: u64,
    pub units: u64,
    pub households: u64,
}

impl Counts {
    pub fn of(answered: &Answered) -> Counts {
        Counts {
            persons: answered.lines().count() as u64,
            units: answered.units().count() as u64,
            households: answered.households().count() as u64,
        }
    }

    pub fn add(&mut self, more: Counts) {
        self.persons += more.persons;
        self.units += more.units;
        self.households += more.households;
    }
}
