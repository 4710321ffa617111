//! What is wrong with the first row of a table.

use super::rows::Field;
use super::rule::Kind;
use super::{Advice, COLUMNS, HEADER, counted, fields_in_words, shown};

/// Large and small letters alike, without blanks at the ends.
fn resembles(field: &Field, name: &str) -> bool {
    field.text().trim().eq_ignore_ascii_case(name)
}

/// Columns behind the four.
fn more(fields: &[Field]) -> Advice {
    let others = fields.get(COLUMNS.len()..).unwrap_or_default();
    let names: Vec<_> = others.iter().map(Field::text).filter(|name| !name.is_empty()).collect();
    let named = match names.as_slice() {
        [] => "without a name".to_string(),
        names => format!("'{}'", shown(&names.join(","))),
    };
    let (what, them) = match others.len() {
        1 => (format!("a column ({named}) stands behind citation"), "it"),
        count => (format!("{} columns ({named}) stand behind citation", counted(count)), "them"),
    };
    Advice::new(what, format!("take {them} out, with all that stands below"))
}

/// None where the header is as it should be.
pub(crate) fn advice(fields: &[Field]) -> Option<Advice> {
    let names = COLUMNS.map(|column| column.name());
    if fields.iter().map(|field| field.bytes.as_slice()).eq(names.map(str::as_bytes)) {
        return None;
    }
    let alike = fields.iter().zip(names).filter(|(field, name)| resembles(field, name)).count();
    let found = shown(&fields.iter().map(Field::text).collect::<Vec<_>>().join(","));
    Some(match (fields, alike) {
        ([field], _) if field.bytes.is_empty() => Advice::new(
            "the first line is empty",
            format!("take it away: the first row is {HEADER}"),
        ),
        ([kind, ..], 0) if Kind::resembling(&kind.text()).is_some() => Advice::new(
            format!("the header is missing: the first row is '{found}'"),
            format!("put the row {HEADER} above it"),
        ),
        (_, 4) if fields.len() > COLUMNS.len() => more(fields),
        (_, 4) if fields.iter().any(Field::has_line_break) => Advice::new(
            format!("the header is '{found}', with a line break in a field"),
            format!("write {HEADER}, without a line break"),
        ),
        (_, 4) => Advice::new(
            format!("the header is '{found}', and capital letters and blanks count"),
            format!("write {HEADER}, in small letters and without blanks"),
        ),
        ([_, _, _, _], _) => {
            Advice::new(format!("the header is '{found}'"), format!("write {HEADER} there"))
        }
        _ => Advice::new(
            format!("the header has {}: '{found}'", fields_in_words(fields.len())),
            format!("write four, each in a cell of its own: {HEADER}"),
        ),
    })
}
