//! What is wrong with a row of more or fewer fields than four.

use super::rows::{Field, Row};
use super::rule::Kind;
use super::whole::{COMMAS, other_marks};
use super::{Advice, COLUMNS, HEADER, fields_in_words, may_go_on, shown};

/// None where there are four, or none.
pub(crate) fn advice(table: &[u8], row: &Row) -> Option<Advice> {
    let line = table.get(row.at..row.end).unwrap_or_default();
    match row.fields.as_slice() {
        [] | [_, _, _, _] => None,
        [field] if field.bytes.is_empty() && !line.contains(&b'"') => Some(empty_line(table, row)),
        [field] => Some(one(line, field)),
        fields if fields.len() < COLUMNS.len() => Some(fewer(fields)),
        fields => Some(more(fields)),
    }
}

/// A line without a field. At the end of a file it is easily overlooked.
fn empty_line(table: &[u8], row: &Row) -> Advice {
    let behind = table.get(row.end..).unwrap_or_default();
    match behind.iter().all(|byte| b"\r\n".contains(byte)) && !may_go_on(table) {
        true => Advice::new(
            "an empty line stands at the end of the file",
            "take it away: the CR LF of the last row may stand there, and nothing behind it",
        ),
        false => Advice::new("the line is empty", "take it away"),
    }
}

/// `line` is the field as it stands, with its quotation marks.
fn one(line: &[u8], field: &Field) -> Advice {
    match other_marks(line) {
        Some(marks) => Advice::new(format!("the fields are parted by {marks}"), COMMAS),
        None => Advice::new(
            format!("it has one field: '{}'", shown(&field.text())),
            format!("write four, each in a cell of its own: {HEADER}"),
        ),
    }
}

fn fewer(fields: &[Field]) -> Advice {
    let what = format!("it has {} in place of four", fields_in_words(fields.len()));
    match fields {
        [kind, _, _] if Kind::resembling(&kind.text()) == Some(Kind::Status) => Advice::new(
            what,
            "write two commas behind the person, as in status,5,,3: a status has an empty right field",
        ),
        _ => Advice::new(what, format!("write four, each in a cell of its own: {HEADER}")),
    }
}

fn more(fields: &[Field]) -> Advice {
    let others = fields.get(COLUMNS.len()..).unwrap_or_default();
    let what = format!("it has {} in place of four", fields_in_words(fields.len()));
    match others.iter().find(|field| !field.bytes.is_empty()) {
        None => Advice::new(
            format!("{what}, those behind citation are empty"),
            "take out the empty columns behind citation",
        ),
        Some(field) => Advice::new(
            what,
            format!("take out what stands behind citation: '{}'", shown(&field.text())),
        ),
    }
}
