//! Sets of persons.

use std::fmt;

use crate::build_error::{BuildError, within};
use crate::person_masks::PERSON_MASKS;

/// A set of persons, who are numbered from 0 to 63.
#[derive(Clone, Copy, Debug, Default, PartialEq, Eq, Hash, PartialOrd, Ord)]
pub struct Persons(u64);

impl Persons {
    pub const NOBODY: Persons = Persons(0);

    /// The set of these persons; an error for a number above 63.
    pub fn of(numbers: &[u8]) -> Result<Persons, BuildError> {
        let mut set = Persons::NOBODY;
        for &number in numbers {
            set = set.union(Persons::alone(within("person", number, 0, 63)?));
        }
        Ok(set)
    }

    /// The set of one person; nobody for a number above 63.
    pub fn alone(person: u8) -> Persons {
        Persons(PERSON_MASKS.get(usize::from(person)).copied().unwrap_or(0))
    }

    /// Bit p stands for person p.
    pub const fn from_mask(mask: u64) -> Persons {
        Persons(mask)
    }

    /// Bit p stands for person p.
    pub const fn mask(self) -> u64 {
        self.0
    }

    /// Whether the person is in the set; nobody above 63 is.
    pub fn holds(self, person: u8) -> bool {
        self.meets(Persons::alone(person))
    }

    pub fn is_empty(self) -> bool {
        self.0 == 0
    }

    pub fn count(self) -> usize {
        self.0.count_ones() as usize
    }

    pub fn union(self, other: Persons) -> Persons {
        Persons(self.0 | other.0)
    }

    /// Those who are not in the other.
    pub fn without(self, other: Persons) -> Persons {
        Persons(self.0 & !other.0)
    }

    /// Whether somebody is in both.
    pub fn meets(self, other: Persons) -> bool {
        self.0 & other.0 != 0
    }

    /// Whether just one of the two is in the set.
    pub fn parts(self, left: u8, right: u8) -> bool {
        self.holds(left) != self.holds(right)
    }

    /// Rising.
    pub fn iter(self) -> Numbers {
        Numbers::of(self.0)
    }
}

impl IntoIterator for Persons {
    type Item = u8;
    type IntoIter = Numbers;

    fn into_iter(self) -> Numbers {
        self.iter()
    }
}

/// As the lister prints a block: numbers parted by commas, or a dash for nobody.
impl fmt::Display for Persons {
    fn fmt(&self, to: &mut fmt::Formatter) -> fmt::Result {
        if self.is_empty() {
            return write!(to, "-");
        }
        for (at, person) in self.iter().enumerate() {
            write!(to, "{}{person}", if at == 0 { "" } else { "," })?;
        }
        Ok(())
    }
}

/// The numbers of the bits that stand in a mask, rising.
#[derive(Clone, Debug)]
pub struct Numbers {
    rest: u64,
}

impl Numbers {
    pub(crate) fn of(mask: u64) -> Numbers {
        Numbers { rest: mask }
    }
}

impl Iterator for Numbers {
    type Item = u8;

    fn next(&mut self) -> Option<u8> {
        if self.rest == 0 {
            return None;
        }
        let lowest = self.rest.trailing_zeros() as u8;
        self.rest &= self.rest - 1;
        Some(lowest)
    }

    fn size_hint(&self) -> (usize, Option<usize>) {
        let count = self.rest.count_ones() as usize;
        (count, Some(count))
    }
}

impl ExactSizeIterator for Numbers {}
