//! amounts.csv: a person a row.

use std::collections::BTreeMap;
use std::fmt;

use crate::amounts::columns::Columns;
use crate::amounts::csv::{Quoting, Rows};
use crate::limits;
use crate::names::{Names, listed};
use crate::persons::Persons;
use crate::shown::shown;

/// What is wrong with a table, and what would mend it.
#[derive(Clone, Debug, PartialEq, Eq)]
pub struct TableFault {
    /// From 1, the header's, as a spreadsheet counts; none where a row is missing.
    pub row: Option<usize>,
    what: String,
}

impl fmt::Display for TableFault {
    fn fmt(&self, to: &mut fmt::Formatter) -> fmt::Result {
        match self.row {
            Some(row) => write!(to, "row {row}: {}", self.what),
            None => write!(to, "{}", self.what),
        }
    }
}

impl std::error::Error for TableFault {}

/// One amount for each person of the roster, rising, or all that is wrong. The first row is `person,cents`, in large or small letters; below it
/// stands each person of the roster just once, in any order, by number or by a name that one person has and that is not digits alone, with a
/// whole number of cents from 0 to 4294967295. Fields are parted by commas and may be quoted (RFC 4180); rows end in CR LF or in LF, which the
/// last may lack. Empty rows below the first, empty columns behind the two, blanks at the ends of a field and a byte order mark say nothing.
///
/// ```
/// use lukhveri::Persons;
/// use lukhveri::amounts::read_table;
/// use lukhveri::names::Names;
///
/// # fn main() -> Result<(), Box<dyn std::error::Error>> {
/// let (roster, names) = (Persons::of(&[0, 7])?, Names::read("person 7 Anna")?);
/// assert_eq!(read_table("person,cents\r\nAnna,250\r\n0,100\r\n", roster, &names), Ok(vec![100, 250]));
/// let faults = read_table("person,cents\n7,2.50\n", roster, &names).expect_err("two faults");
/// let said: Vec<String> = faults.iter().map(|fault| fault.to_string()).collect();
/// assert!(said[0].starts_with("row 2: '2.50' is no whole number of cents; "));
/// assert_eq!(said[1], "there is no row for person 0; add one with the amount");
/// # Ok(())
/// # }
/// ```
pub fn read_table(text: &str, roster: Persons, names: &Names) -> Result<Vec<u32>, Vec<TableFault>> {
    let text = text.strip_prefix('\u{feff}').unwrap_or(text);
    let mut rows = Rows::of(text);
    let fault = |what| TableFault { row: Some(1), what };
    let columns = Columns::read(text, rows.next()).map_err(|what| vec![fault(what)])?;
    let faults = columns.faults().into_iter().map(fault).collect();
    let mut table =
        Table { columns, roster, names, found: BTreeMap::new(), unclear: false, faults };
    (2..).zip(rows).for_each(|(number, row)| table.row(number, row));
    table.missing();
    match table.faults.is_empty() {
        true => Ok(table.found.values().map(|entry| entry.cents).collect()),
        false => Err(table.faults),
    }
}

fn is_digits(word: &str) -> bool {
    !word.is_empty() && word.bytes().all(|byte| byte.is_ascii_digit())
}

/// What a row says of a person.
struct Entry {
    row: usize,
    /// 0 where it is at fault.
    cents: u32,
}

struct Table<'a> {
    columns: Columns,
    roster: Persons,
    names: &'a Names,
    found: BTreeMap<u8, Entry>,
    /// Of some row it could not be made out whose it is.
    unclear: bool,
    faults: Vec<TableFault>,
}

impl Table<'_> {
    fn row(&mut self, row: usize, fields: Result<Vec<String>, Quoting>) {
        let fields = match fields {
            Err(quoting) => return self.nobodys(row, quoting.to_string()),
            Ok(fields) => fields,
        };
        match self.columns.in_order(&fields).as_slice() {
            fields if fields.iter().all(|field| field.is_empty()) => {}
            [person, cents] => self.pair(row, person, cents),
            fields => self.odd(row, fields),
        }
    }

    fn fault(&mut self, row: usize, what: String) {
        self.faults.push(TableFault { row: Some(row), what });
    }

    /// A row of which it cannot be made out whose it is.
    fn nobodys(&mut self, row: usize, what: String) {
        self.unclear = true;
        self.fault(row, what);
    }

    fn pair(&mut self, row: usize, person: &str, cents: &str) {
        let cents = self.cents(cents).unwrap_or_else(|what| {
            self.fault(row, what);
            0
        });
        match self.person(person) {
            Ok(person) if self.roster.holds(person) => self.enter(row, person, cents),
            Ok(person) => self.stranger(row, person),
            Err(what) => self.nobodys(row, what),
        }
    }

    /// A row of one field, or of three and more. Whom it names is not missing as well.
    fn odd(&mut self, row: usize, fields: &[&str]) {
        let besides = self.columns.besides();
        let what = match fields.len() {
            1 => format!(
                "it has 1 field{besides}; write two, person and cents, with a comma between them"
            ),
            count => format!(
                "it has {count} fields{besides}; write two, person and cents: no comma within cents, and a name with a comma in quotation marks"
            ),
        };
        self.fault(row, what);
        match fields.first().and_then(|word| self.person(word).ok()) {
            Some(person) => drop(self.found.entry(person).or_insert(Entry { row, cents: 0 })),
            None => self.unclear = true,
        }
    }

    fn stranger(&mut self, row: usize, person: u8) {
        let person = self.names.numbered("person", person);
        self.fault(
            row,
            format!("{person} is not on the roster; take the row away, or correct the person"),
        );
    }

    fn enter(&mut self, row: usize, person: u8, cents: u32) {
        match self.found.get(&person).map(|entry| entry.row) {
            None => drop(self.found.insert(person, Entry { row, cents })),
            Some(before) => {
                let person = self.names.numbered("person", person);
                self.fault(
                    row,
                    format!("{person} stands in row {before} already; keep one of the two"),
                );
            }
        }
    }

    fn cents(&self, word: &str) -> Result<u32, String> {
        let most = u32::MAX;
        match word.parse() {
            Ok(cents) if is_digits(word) => Ok(cents),
            _ if word.is_empty() => {
                Err("there are no cents; write the amount, 0 for none".to_string())
            }
            _ if is_digits(word) => {
                Err(format!("{} is too large; correct the amount, at most {most}", shown(word)))
            }
            _ => Err(format!(
                "'{}' is no whole number of cents; write digits alone, from 0 to {most}: 1250 for 12.50",
                shown(word)
            )),
        }
    }

    /// By number or name, on the roster or not.
    fn person(&self, word: &str) -> Result<u8, String> {
        if is_digits(word) { self.numbered(word) } else { self.called(word) }
    }

    /// By a number that is nobody else's name.
    fn numbered(&self, word: &str) -> Result<u8, String> {
        let person = numbered(word);
        match self.names.called(word).iter().find(|other| person.as_ref() != Ok(other)) {
            None => person,
            Some(other) => Err(format!(
                "digits alone are a person's number, but '{}' is also the name of person {other}; give person {other} a name in names.txt that is not digits alone",
                shown(word)
            )),
        }
    }

    fn called(&self, word: &str) -> Result<u8, String> {
        let persons = self.names.called(word);
        let numbers = || listed(persons.iter().map(|person| format!("person {person}")));
        match (persons.iter().next(), persons.count()) {
            (Some(person), 1) => Ok(person),
            (Some(_), _) => {
                Err(format!("{} are called '{}'; write the number", numbers(), shown(word)))
            }
            (None, _) if word.is_empty() => {
                Err("it names nobody; write a person's number or name".to_string())
            }
            (None, _) if self.names.are_unused() => Err(format!(
                "'{}' is no person's number, and names.txt is not used because of its fault; mend names.txt, or write the number",
                shown(word)
            )),
            (None, _) => Err(format!(
                "'{}' is no person's number, and no name of names.txt; write the number, or the name as it stands there",
                shown(word)
            )),
        }
    }

    /// Those of the roster who have no row. A row that could not be read may be theirs: whoever adds one then has two.
    fn missing(&mut self) {
        let found = |person: &u8| self.found.contains_key(person);
        let missing: Vec<u8> = self.roster.iter().filter(|person| !found(person)).collect();
        let add = match missing.len() {
            0 => return,
            1 => "add one with the amount",
            _ => "add one with the amount for each",
        };
        let persons = listed(missing.iter().map(|person| self.names.numbered("person", *person)));
        let what = match self.unclear {
            false => format!("there is no row for {persons}; {add}"),
            true => format!(
                "no row that could be read is for {persons}; the rows above may be theirs: mend these first, then add what is still missing"
            ),
        };
        self.faults.push(TableFault { row: None, what });
    }
}

fn numbered(word: &str) -> Result<u8, String> {
    let number = word.parse().ok().filter(|number| usize::from(*number) < limits::PERSONS);
    number.ok_or_else(|| {
        format!("there is no person {}, only 0 to 63; correct the number", shown(word))
    })
}
