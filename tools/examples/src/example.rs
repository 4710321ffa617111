//! A plan and a case with the words for their numbers.

use std::error::Error;

use lukhveri::{Case, Plan};

/// Why an example cannot be made.
pub type Fault = Box<dyn Error>;

/// A number and what it stands for.
pub type Word = (u8, &'static str);

pub struct Example {
    /// Its folder in examples/.
    pub folder: &'static str,
    pub title: &'static str,
    /// What is known, in plain words.
    pub story: &'static str,
    /// What the answer says, in plain words.
    pub outcome: &'static str,
    pub plan: Plan,
    pub case: Case,
    /// Cents by person; nothing where no amounts are pooled.
    pub amounts: &'static [(u8, u32)],
    /// What a spreadsheet program wrote, the table of the plan first; nothing where the plan was not drafted in one.
    pub sheets: &'static [Sheet],
    pub words: Words,
}

impl Example {
    /// The table that the plan was made of; empty where there is none.
    pub fn table(&self) -> &[u8] {
        self.sheets.first().map_or(&[], |sheet| sheet.bytes)
    }
}

/// A file of a spreadsheet program, kept as it was written.
pub struct Sheet {
    pub file: &'static str,
    pub bytes: &'static [u8],
    /// Where it comes from.
    pub origin: &'static str,
}

/// What the numbers stand for. Facts are numbered as in the file.
pub struct Words {
    pub persons: &'static [Word],
    pub facts: &'static [Word],
    /// The paragraphs of the rule book: number, name, sentence.
    pub citations: &'static [(u8, &'static str, &'static str)],
    /// Rules and decisions with a name of their own: sort, number, name.
    pub rules: &'static [(&'static str, u8, &'static str)],
    pub evidence: &'static [Word],
    pub actors: &'static [Word],
}

impl Words {
    pub fn person(&self, number: u8) -> &'static str {
        word(self.persons, number)
    }

    pub fn fact(&self, number: u8) -> &'static str {
        word(self.facts, number)
    }
}

fn word(list: &[Word], number: u8) -> &'static str {
    let found = list.iter().find(|(other, _)| *other == number);
    found.map_or("", |(_, word)| word)
}
