//! The first row of amounts.csv: which column holds what.

use crate::amounts::csv::Quoting;
use crate::shown::shown;

/// What stands in the first row.
const HEADER: [&str; 2] = ["person", "cents"];

/// A column that is to be taken out.
#[derive(Debug, PartialEq, Eq)]
struct Other {
    at: usize,
    name: String,
}

/// Where person and cents stand. Where they could be found, rows are read by them even if the first row has a fault, so that all is told at once.
#[derive(Debug, Default, PartialEq, Eq)]
pub(crate) struct Columns {
    /// Cents stand before person.
    turned: bool,
    /// By their places.
    others: Vec<Other>,
}

impl Columns {
    /// By the first row of a text.
    pub(crate) fn read(
        text: &str,
        row: Option<Result<Vec<String>, Quoting>>,
    ) -> Result<Columns, String> {
        commas(text)?;
        let wanted = HEADER.join(",");
        let fields = match row {
            None => {
                return Err(format!(
                    "the file is empty; write {wanted}, and below it a row for each person"
                ));
            }
            Some(fields) => fields.map_err(|quoting| quoting.to_string())?,
        };
        Columns::of(&fields).ok_or_else(|| {
            let found = shown(&fields.join(","));
            format!("the first row is '{found}'; write {wanted} there, and below it a row for each person, with no other column")
        })
    }

    /// None where one of the two is missing.
    fn of(fields: &[String]) -> Option<Columns> {
        let place = |name: &str| fields.iter().position(|field| is(field, name));
        let [person, cents] = HEADER.map(place);
        let (person, cents) = (person?, cents?);
        let behind = |at: usize| at > person && at > cents;
        let columns = fields.iter().map(|field| field.trim()).enumerate();
        let others = columns
            .filter(|(at, name)| *at != person && *at != cents && !(behind(*at) && name.is_empty()))
            .map(|(at, name)| Other { at, name: name.to_string() });
        Some(Columns { turned: cents < person, others: others.collect() })
    }

    /// What is wrong with the first row, though rows can be read by it.
    pub(crate) fn faults(&self) -> Vec<String> {
        let turned = "cents stand before person; write person,cents, and so in every row below";
        let others = self.others.iter().map(|other| {
            let name = match other.name.is_empty() {
                true => "without a name".to_string(),
                false => format!("'{}'", shown(&other.name)),
            };
            let number = other.at + 1;
            format!("column {number} ({name}) is one too many; take it out, with all that stands below it")
        });
        self.turned.then(|| turned.to_string()).into_iter().chain(others).collect()
    }

    /// The fields of a row as they would be without these faults: person, cents, and what else is not empty.
    pub(crate) fn in_order<'a>(&self, fields: &'a [String]) -> Vec<&'a str> {
        let other = |at: usize| self.others.binary_search_by_key(&at, |other| other.at).is_ok();
        let fields = fields.iter().map(|field| field.trim()).enumerate();
        let mut kept: Vec<&str> =
            fields.filter(|(at, _)| !other(*at)).map(|(_, field)| field).collect();
        while kept.len() > HEADER.len() && kept.last() == Some(&"") {
            kept.pop();
        }
        if self.turned {
            kept.resize(kept.len().max(HEADER.len()), "");
            kept.swap(0, 1);
        }
        kept
    }

    /// What a count of a row's fields leaves out.
    pub(crate) fn besides(&self) -> &'static str {
        match self.others.len() {
            0 => "",
            1 => " besides the column to take out",
            _ => " besides the columns to take out",
        }
    }
}

/// Large and small letters alike, without blanks at the ends.
fn is(field: &str, name: &str) -> bool {
    field.trim().eq_ignore_ascii_case(name)
}

/// Whether the first row is parted as it should be: spreadsheets write semicolons and tabs, too.
fn commas(text: &str) -> Result<(), String> {
    let first = text.lines().next().unwrap_or_default();
    let others = [(';', "semicolons"), ('\t', "tabs")];
    match others.iter().find(|(mark, _)| first.contains(*mark) && !first.contains(',')) {
        Some((_, marks)) => {
            let (found, wanted) = (shown(first), HEADER.join(","));
            Err(format!(
                "the first row is '{found}', parted by {marks}; write {wanted} there, and part all rows by commas"
            ))
        }
        None => Ok(()),
    }
}
