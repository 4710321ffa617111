//! The lister's table, read back from its text.

use lukhveri::Listing;
use lukhveri::words::counted;

use crate::json::Json;

/// A missing block, and the role of somebody who is excluded, as they are printed.
const NO_BLOCK: &str = "-";
const EXCLUDED: &str = "2";

/// A row of a person, word by word.
struct Row<'a> {
    person: &'a str,
    kind: &'a str,
    role: &'a str,
    block: &'a str,
}

impl<'a> Row<'a> {
    /// None for the last row, which has two words.
    fn of(line: &'a str) -> Option<Row<'a>> {
        let mut words = line.split(' ');
        let [person, kind, role] = [words.next()?, words.next()?, words.next()?];
        Some(Row { person, kind, role, block: words.next()? })
    }

    fn json(&self) -> Json {
        let number = |word: &str| Json::from(word.parse::<u64>().ok());
        let block = self.block.split(',').filter_map(|person| person.parse::<u64>().ok());
        Json::object([
            ("person", number(self.person)),
            ("kind", number(self.kind)),
            ("role", number(self.role)),
            ("block", Json::list(block)),
        ])
    }
}

/// The rows of persons, and the number of the last row.
pub struct Listed<'a> {
    rows: Vec<Row<'a>>,
    households: u64,
}

impl<'a> Listed<'a> {
    /// None for a refusal.
    pub fn of(listing: &'a Listing) -> Option<Listed<'a>> {
        let rows = listing.text.lines().skip(1).filter_map(Row::of).collect();
        Some(Listed { rows, households: listing.households()? })
    }

    /// The different blocks, in the order of the rows.
    fn units(&self) -> Vec<&'a str> {
        let mut units = Vec::new();
        for block in self.rows.iter().map(|row| row.block) {
            if block != NO_BLOCK && !units.contains(&block) {
                units.push(block);
            }
        }
        units
    }

    fn is_excluded(&self, unit: &str) -> bool {
        self.rows.iter().filter(|row| row.block == unit).all(|row| row.role == EXCLUDED)
    }

    pub fn json(&self) -> String {
        Json::object([
            ("lines", Json::List(self.rows.iter().map(Row::json).collect())),
            ("units", self.units().len().into()),
            ("households", self.households.into()),
        ])
        .line()
    }

    /// What the word of the last row hides: where there are more units than households, how many there are of both, and which units are none.
    pub fn note(&self) -> Option<String> {
        let units = self.units();
        let count = units.len();
        if count as u64 == self.households {
            return None;
        }
        let excluded = units.iter().filter(|unit| self.is_excluded(unit));
        let blocks: Vec<String> = excluded.map(|unit| format!("block {unit}")).collect();
        let there = match (count, blocks.len()) {
            (1, _) => "there is 1 unit, but everybody in it is excluded".to_string(),
            (_, some) if some == count => {
                format!("there are {count} units, but in each of them everybody is excluded")
            }
            (_, some) => {
                format!("there are {count} units, but in {some} of them everybody is excluded")
            }
        };
        let (households, blocks) = (counted(self.households, "household"), blocks.join("; "));
        Some(format!("the last row counts {households}; {there}: {blocks}"))
    }
}
