//! The rows of a case.

use std::ffi::OsString;
use std::path::PathBuf;

use lukhveri::{Answered, Buffers, Line, Refusal, files};

use crate::batch::counts::Counts;
use crate::batch::csv::row;
use crate::batch::folder::Folder;
use crate::batch::pools;
use crate::json::Json;
use crate::lines;
use crate::refused::Refused;

/// The columns of the table of persons.
pub const COLUMNS: [&str; 12] = [
    "case",
    "person",
    "name",
    "kind",
    "role",
    "block",
    "open facts",
    "open decisions",
    "citations",
    "refusal",
    "record",
    "reason",
];

/// Columns between the case and those of a refusal.
const SAID: usize = COLUMNS.len() - 4;

#[derive(Clone, Copy, Debug, PartialEq, Eq)]
pub enum Style {
    Csv,
    Json,
}

impl Style {
    /// What stands above all rows.
    pub fn heading(self, columns: &[&str]) -> Vec<u8> {
        let (mut text, columns) = (Vec::new(), columns.iter().map(|name| name.as_bytes()));
        if self == Style::Csv {
            row(&columns.collect::<Vec<_>>(), &mut text);
        }
        text
    }
}

/// What became of a case.
#[derive(Clone, Copy, Debug, PartialEq, Eq)]
pub enum Fate {
    Answered(Counts),
    Refused,
    Unreadable,
}

/// The rows of a case, and what became of it.
pub struct Rows {
    pub text: Vec<u8>,
    pub fate: Fate,
    /// What is wrong with the folder's table of amounts, if anything is.
    pub faulty_table: Option<String>,
}

impl Rows {
    pub fn new(text: Vec<u8>, fate: Fate) -> Rows {
        Rows { text, fate, faulty_table: None }
    }
}

/// A case, and how its rows are written.
pub struct CaseFile<'a> {
    pub folder: &'a Folder,
    pub file: &'a OsString,
    pub style: Style,
}

/// The numbers of a cell, parted by blanks.
pub fn cell(numbers: impl IntoIterator<Item = u8>) -> String {
    let numbers = numbers.into_iter().map(|number| number.to_string());
    numbers.collect::<Vec<_>>().join(" ")
}

impl CaseFile<'_> {
    fn path(&self) -> PathBuf {
        self.folder.path.join(self.file)
    }

    /// Answers the case over the folder's plan, and pools the folder's amounts if they are asked for.
    pub fn answer(&self, buffers: &mut Buffers) -> Rows {
        let bytes = files::read_case(&self.path()).map_err(|fault| fault.fault.to_string());
        let (case, plan) = match (&bytes, &self.folder.plan) {
            (Err(error), _) | (_, Err(error)) => return self.unreadable(error),
            (Ok(case), Ok(plan)) => (case, plan),
        };
        match &self.folder.amounts {
            Some(Err(error)) => self.unreadable(error),
            Some(Ok(amounts)) => self.pool(amounts, plan, case, buffers),
            None => match buffers.answer(plan, case) {
                Ok(answered) => self.answered(&answered),
                Err(refusal) => self.refused(&refusal, plan, case),
            },
        }
    }

    fn answered(&self, answered: &Answered) -> Rows {
        let mut text = Vec::new();
        answered.lines().for_each(|line| self.person(&line, &mut text));
        Rows::new(text, Fate::Answered(Counts::of(answered)))
    }

    pub fn object(&self) -> Json {
        Json::object([("case", self.path().to_string_lossy().as_ref().into())])
    }

    fn person(&self, line: &Line, text: &mut Vec<u8>) {
        if self.style == Style::Json {
            let object = self.object().and(lines::json(line, &self.folder.names));
            return text.extend(object.line().into_bytes());
        }
        let numbers = [line.person, line.kind.number(), line.role.number()];
        let [person, kind, role] = numbers.map(|number| number.to_string());
        let name = self.folder.names.find("person", line.person).unwrap_or_default();
        let (block, facts) = (cell(line.block), cell(line.open_facts()));
        let (decisions, citations) = (cell(line.open_decisions()), cell(line.citations()));
        let rest = [&person, name, &kind, &role, &block, &facts, &decisions, &citations];
        self.row(&rest, ["", "", ""], text);
    }

    pub fn refused(&self, refusal: &Refusal, plan: &[u8], case: &[u8]) -> Rows {
        let refused = Refused { refusal, plan, case, names: &self.folder.names };
        let mut text = Vec::new();
        match self.style {
            Style::Json => {
                text.extend(self.object().with("refusal", refused.json()).line().into_bytes());
            }
            Style::Csv => {
                let (number, record) = (refusal.number().to_string(), refusal.record().to_string());
                self.row(self.nothing(), [&number, &record, &refused.reason()], &mut text);
            }
        }
        Rows::new(text, Fate::Refused)
    }

    pub fn unreadable(&self, error: &str) -> Rows {
        let (mut text, why) = (Vec::new(), format!("unreadable: {error}"));
        match self.style {
            Style::Json => text.extend(self.object().with("error", why).line().into_bytes()),
            Style::Csv => self.row(self.nothing(), ["", "", &why], &mut text),
        }
        Rows::new(text, Fate::Unreadable)
    }

    /// What is said where there is no answer: nothing between the case and the last three columns.
    fn nothing(&self) -> &'static [&'static str] {
        if self.folder.amounts.is_some() { &[""; pools::SAID] } else { &[""; SAID] }
    }

    /// A row: the case, what is said of a person or a unit, and why nothing is.
    pub fn row(&self, said: &[&str], why: [&str; 3], text: &mut Vec<u8>) {
        let path = self.path();
        let mut fields = vec![path.as_os_str().as_encoded_bytes()];
        fields.extend(said.iter().map(|field| field.as_bytes()));
        fields.extend(why.iter().map(|field| field.as_bytes()));
        row(&fields, text);
    }
}
