//! What is wrong with a table of rules, in words.
//!
//! Whether a table is accepted, and which row is the first that breaks its form, the proved code alone says ([`Plan::from_table`](crate::Plan::from_table)).
//! What stands here reads the table again, at that row, for what people need to mend it: the line of the file, the field, and what would do.

mod chains;
mod count;
mod header;
mod notes;
mod rows;
mod rule;
mod whole;

use std::fmt;

use crate::files::RULES_LENGTH;
use crate::names::listed;
use crate::refusal::{Reason, Refusal};
use rows::{Break, Field, Row, Rows};

pub use chains::Chain;
pub use notes::{Note, notes};
pub use whole::with_returns;

/// A column of the table.
#[derive(Clone, Copy, Debug, PartialEq, Eq, Hash)]
pub enum Column {
    Kind,
    Left,
    Right,
    Citation,
}

const COLUMNS: [Column; 4] = [Column::Kind, Column::Left, Column::Right, Column::Citation];

/// The first row of every table.
const HEADER: &str = "kind,left,right,citation";

impl Column {
    /// As the header has it.
    pub fn name(self) -> &'static str {
        match self {
            Column::Kind => "kind",
            Column::Left => "left",
            Column::Right => "right",
            Column::Citation => "citation",
        }
    }
}

impl fmt::Display for Column {
    fn fmt(&self, to: &mut fmt::Formatter) -> fmt::Result {
        to.write_str(self.name())
    }
}

/// What is wrong, and what would mend it.
#[derive(Clone, Debug, PartialEq, Eq)]
struct Advice {
    what: String,
    mend: String,
}

impl Advice {
    fn new(what: impl Into<String>, mend: impl Into<String>) -> Advice {
        Advice { what: what.into(), mend: mend.into() }
    }

    /// Several at once.
    fn joined(all: &[Advice]) -> Advice {
        let what = listed(all.iter().map(|advice| advice.what.clone()));
        let mend = all.iter().map(|advice| advice.mend.as_str()).collect::<Vec<_>>().join("; ");
        Advice { what, mend }
    }
}

/// What was found: the byte of the table at which it is wrong, the field, and the words.
struct Found {
    at: usize,
    field: Option<Column>,
    advice: Advice,
}

/// What is wrong with the row that a refusal names.
#[derive(Clone, Debug, PartialEq, Eq)]
pub struct RowFault {
    /// The row of the refusal, counted from 0, the header's.
    pub row: u64,
    /// The line of the file in which it is wrong, counted from 1. None where nothing was found.
    pub line: Option<usize>,
    /// The field that is at fault; none where it is the row as a whole.
    pub field: Option<Column>,
    /// The line in which the row begins: fields in quotation marks may hold line breaks.
    begins: Option<usize>,
    advice: Option<Advice>,
    bare_line_feed: bool,
}

impl RowFault {
    /// Reads a table again at the row that was refused.
    fn find(table: &[u8], row: u64) -> RowFault {
        let place = usize::try_from(row).unwrap_or(usize::MAX);
        let mut rows = Rows::of(table);
        let before: Vec<Row> = rows.by_ref().take(place).collect();
        let (start, named) = (before.last().map_or(0, |row| row.end), rows.next());
        let bare_line_feed =
            named.as_ref().is_some_and(|row| matches!(row.broken, Some((_, Break::Feed))));
        let found = match place {
            0 => found_in_header(table, named),
            _ => named.and_then(|row| found(table, &before, &row)),
        };
        let (line, begins, field, advice) = match found {
            None => (None, None, None, None),
            Some(Found { at, field, advice }) => {
                (Some(line_of(table, at)), Some(line_of(table, start)), field, Some(advice))
            }
        };
        RowFault { row, line, field, begins, advice, bare_line_feed }
    }

    /// What is wrong, without the place. None where nothing was found but that the row is refused.
    pub fn finding(&self) -> Option<&str> {
        self.advice.as_ref().map(|advice| advice.what.as_str())
    }

    /// What would mend it.
    pub fn remedy(&self) -> &str {
        match &self.advice {
            Some(advice) => &advice.mend,
            None => Refusal::nowhere(Reason::BrokenRow { row: self.row }).remedy(),
        }
    }

    /// Whether the row is broken by an LF without a CR before it, as in a file with line ends of Unix: [`with_returns`] mends that.
    pub fn has_bare_line_feed(&self) -> bool {
        self.bare_line_feed
    }

    /// Row, line and field.
    pub fn place(&self) -> String {
        let header = if self.row == 0 { ", the header" } else { "" };
        let lines = match (self.line, self.begins) {
            (Some(line), Some(begins)) if line != begins => {
                format!(" (line {line} of the file; the row begins in line {begins})")
            }
            (Some(line), _) => format!(" (line {line} of the file)"),
            (None, _) => String::new(),
        };
        let field = self.field.map(|field| format!(", field {field}")).unwrap_or_default();
        format!("row {} of the table{header}{lines}{field}", self.row)
    }
}

impl fmt::Display for RowFault {
    fn fmt(&self, to: &mut fmt::Formatter) -> fmt::Result {
        match self.finding() {
            Some(finding) => write!(to, "{}: {finding}", self.place()),
            None => write!(to, "row {} of the table breaks its form", self.row),
        }
    }
}

impl Refusal {
    /// What is wrong with the row of a table that this refusal names, 16; none for other refusals. The table is the one that was refused. One as
    /// long as [`RULES_LENGTH`] may go on behind it: what is said holds however it does.
    pub fn row_fault(&self, table: &[u8]) -> Option<RowFault> {
        match self.reason {
            Reason::BrokenRow { row } => Some(RowFault::find(table, row)),
            _ => None,
        }
    }
}

/// The line of a byte, counted from 1. A line ends in CR LF, in LF or in CR.
fn line_of(table: &[u8], at: usize) -> usize {
    let before = table.get(..at).unwrap_or(table);
    let feeds = before.iter().filter(|byte| **byte == b'\n').count();
    let next = before.iter().skip(1).chain(table.get(at));
    let returns = before.iter().zip(next).filter(|(one, next)| (**one, **next) != (b'\r', b'\n'));
    1 + feeds + returns.filter(|(one, _)| **one == b'\r').count()
}

/// What is wrong with a row below the header, which has these rows before it.
fn found(table: &[u8], before: &[Row], row: &Row) -> Option<Found> {
    let whole = |advice| Found { at: row.at, field: None, advice };
    if is_endless(table, row) {
        return Some(whole(whole::endless()));
    }
    if let Some((at, how)) = row.broken {
        return Some(broken(row, at, how));
    }
    let [kind, left, right, citation] = row.fields.as_slice() else {
        return count::advice(table, row).map(whole);
    };
    let Some((field, advice)) = rule::advice([kind, left, right, citation]) else {
        return rule::limit(row, before).map(whole);
    };
    let place = COLUMNS.iter().position(|column| Some(*column) == field);
    let at = place.and_then(|place| row.fields.get(place)).map_or(row.at, |field| field.at);
    Some(Found { at, field, advice })
}

fn found_in_header(table: &[u8], row: Option<Row>) -> Option<Found> {
    let whole = |advice| Found { at: 0, field: None, advice };
    let Some(row) = row else {
        return Some(whole(whole::empty()));
    };
    if let Some(advice) = whole::other_form(table) {
        return Some(whole(advice));
    }
    if is_endless(table, &row) {
        return Some(whole(whole::endless()));
    }
    let signs = whole::signs(table, &row);
    match (signs.is_empty(), row.broken) {
        (false, _) => Some(whole(Advice::joined(&signs))),
        (true, Some((at, how))) => Some(broken(&row, at, how)),
        (true, None) => header::advice(&row.fields).map(whole),
    }
}

/// Whether this may be no more than the beginning of a table, as [`read_rules`](crate::files::read_rules) gives it.
fn may_go_on(table: &[u8]) -> bool {
    table.len() >= RULES_LENGTH
}

/// Whether a row may go on where a table does, so that nobody knows what is in it.
fn is_endless(table: &[u8], row: &Row) -> bool {
    let ends = match row.broken {
        None => row.end < table.len() || table.ends_with(b"\r\n"),
        Some((_, Break::Unclosed)) => false,
        Some((at, Break::Return)) => at + 1 < table.len(),
        Some(_) => true,
    };
    may_go_on(table) && !ends
}

/// What is wrong with the quoting of a row. A line end is in no field.
fn broken(row: &Row, at: usize, how: Break) -> Found {
    let column = |place: usize| COLUMNS.get(place).copied();
    let next = row.fields.len();
    let (field, what, mend) = match how {
        Break::Unclosed => (
            column(next),
            "its quotation mark is never closed",
            "close it behind the field, or take it away",
        ),
        Break::Behind => (
            next.checked_sub(1).and_then(column),
            "something stands behind its closing quotation mark",
            "put the whole field into the quotation marks, or take them away",
        ),
        Break::Within => (
            column(next),
            "a quotation mark stands within it",
            "take it away: no word and no number has one",
        ),
        Break::Blank => (
            column(next),
            "a blank stands before its quotation mark",
            "take away what stands before the quotation mark",
        ),
        Break::Return => (
            None,
            "a CR stands without an LF behind it",
            "end each row in CR LF, and have no line break within a field",
        ),
        Break::Feed => (
            None,
            "an LF stands without a CR before it",
            "end each row in CR LF, and have no line break within a field",
        ),
    };
    Found { at, field, advice: Advice::new(what, mend) }
}

impl Field {
    /// Bytes that are no UTF-8 are shown as such.
    fn text(&self) -> String {
        String::from_utf8_lossy(&self.bytes).into_owned()
    }

    fn has_line_break(&self) -> bool {
        self.bytes.iter().any(|byte| b"\r\n".contains(byte))
    }
}

/// Small numbers are words, as in the advice.
fn counted(count: usize) -> String {
    const WORDS: [&str; 10] =
        ["no", "one", "two", "three", "four", "five", "six", "seven", "eight", "nine"];
    WORDS.get(count).map_or(count.to_string(), |word| word.to_string())
}

fn fields_in_words(count: usize) -> String {
    format!("{} field{}", counted(count), if count == 1 { "" } else { "s" })
}

/// The beginning of what was written, in one line; what cannot be seen there is a question mark.
fn shown(text: &str) -> String {
    let line = text.chars().map(|letter| match letter {
        letter if letter.is_whitespace() && !letter.is_control() => ' ',
        letter if is_seen(letter) => letter,
        _ => '?',
    });
    crate::shown::shown(&line.collect::<String>())
}

/// Letters, digits and marks; the library's own debug form escapes what has no look of its own.
fn is_seen(letter: char) -> bool {
    match letter.is_ascii() {
        true => letter.is_ascii_graphic(),
        false => letter.is_alphanumeric() || letter.escape_debug().count() == 1,
    }
}
