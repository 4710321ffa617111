//! The rows of a case whose amounts are pooled: one for each unit, and one for what is unplaced.

use lukhveri::amounts::{Amounts, AmountsError, TableFault};
use lukhveri::{Buffers, Persons, Pooled};

use crate::batch::counts::Counts;
use crate::batch::rows::{CaseFile, Fate, Rows, Style, cell};
use crate::json::Json;

/// The columns of the table of units.
pub const COLUMNS: [&str; 10] = [
    "case",
    "part",
    "persons",
    "names",
    "cents",
    "open",
    "household",
    "refusal",
    "record",
    "reason",
];

/// Columns between the case and those of a refusal.
pub const SAID: usize = COLUMNS.len() - 4;

/// A unit, or all who are unplaced.
struct Part {
    name: &'static str,
    persons: Persons,
    cents: u64,
    /// Of a unit alone.
    open: Option<bool>,
    /// Of a unit alone.
    household: Option<bool>,
}

/// The units in order, and what is unplaced.
fn parts(pooled: &Pooled) -> Vec<Part> {
    let households: Vec<Persons> = pooled.answered().households().collect();
    let units = pooled.units().map(|unit| Part {
        name: "unit",
        persons: unit.persons,
        cents: unit.cents,
        open: Some(unit.open),
        household: Some(households.contains(&unit.persons)),
    });
    let others = pooled.lines().filter(|line| !line.is_pooled());
    let others = others.fold(Persons::NOBODY, |all, line| all.union(Persons::alone(line.person)));
    let (name, cents) = ("unplaced", pooled.unplaced());
    let unplaced = Part { name, persons: others, cents, open: None, household: None };
    units.chain([unplaced]).collect()
}

/// What is said of a unit: yes or no; nothing of those who are unplaced.
fn said_of(unit: Option<bool>) -> &'static str {
    match unit {
        Some(true) => "yes",
        Some(false) => "no",
        None => "",
    }
}

/// The first fault, and how many more there are.
fn said(faults: &[TableFault]) -> String {
    let first = faults.first().map(TableFault::to_string).unwrap_or_default();
    match faults.len() {
        0 | 1 => first,
        2 => format!("{first} (and 1 more fault)"),
        count => format!("{first} (and {} more faults)", count - 1),
    }
}

impl CaseFile<'_> {
    /// Pools the folder's amounts.
    pub fn pool(&self, amounts: &Amounts, plan: &[u8], case: &[u8], buffers: &mut Buffers) -> Rows {
        let list = amounts.list(plan, case, &self.folder.names);
        let pooled = list.and_then(|list| Ok(buffers.pool(plan, case, &list)?));
        match pooled {
            Ok(pooled) => self.pooled(&pooled),
            Err(AmountsError::Refused(refusal)) => self.refused(&refusal, plan, case),
            Err(AmountsError::Table(faults)) => self.faulty(&said(&faults)),
        }
    }

    /// The row of a case for which the table cannot be read: some of its faults hang on the roster.
    fn faulty(&self, said: &str) -> Rows {
        let (folder, file) = (self.folder.path.display(), self.file.to_string_lossy());
        let faulty_table = Some(format!("{folder}: amounts.csv for {file}: {said}"));
        Rows { faulty_table, ..self.unreadable(&format!("amounts.csv: {said}")) }
    }

    fn pooled(&self, pooled: &Pooled) -> Rows {
        let mut text = Vec::new();
        parts(pooled).iter().for_each(|part| self.part(part, &mut text));
        Rows::new(text, Fate::Answered(Counts::of(&pooled.answered())))
    }

    /// What the persons are called; nothing where nobody has a name.
    fn called(&self, persons: Persons) -> String {
        let names = &self.folder.names;
        match persons.iter().any(|person| names.find("person", person).is_some()) {
            true => persons.iter().map(|one| names.person(one)).collect::<Vec<_>>().join("; "),
            false => String::new(),
        }
    }

    fn part(&self, part: &Part, text: &mut Vec<u8>) {
        let (Part { name, persons, cents, .. }, names) = (part, &self.folder.names);
        let (open, household) = (part.open, part.household);
        if self.style == Style::Json {
            let object = self.object().and(Json::object([
                ("part", (*name).into()),
                ("persons", Json::list(*persons)),
                ("names", Json::list(persons.iter().map(|one| names.find("person", one)))),
                ("cents", (*cents).into()),
                ("open", open.into()),
                ("household", household.into()),
            ]));
            return text.extend(object.line().into_bytes());
        }
        let (numbers, cents) = (cell(*persons), cents.to_string());
        let (open, household) = (said_of(open), said_of(household));
        let names = self.called(*persons);
        self.row(&[name, &numbers, &names, &cents, open, household], ["", "", ""], text);
    }
}
