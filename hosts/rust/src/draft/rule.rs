//! What is wrong with a row below the header: a word, a number, a field that should be empty or should not, a limit.

use super::rows::{Field, Row};
use super::{Advice, Column, shown};
use crate::limits;

/// What the first field of a row says.
#[derive(Clone, Copy, Debug, PartialEq, Eq)]
pub(crate) enum Kind {
    Base,
    Combination,
    Status,
}

const KINDS: [Kind; 3] = [Kind::Base, Kind::Combination, Kind::Status];

impl Kind {
    fn word(self) -> &'static str {
        match self {
            Kind::Base => "base",
            Kind::Combination => "combination",
            Kind::Status => "status",
        }
    }

    pub(crate) fn of(field: &Field) -> Option<Kind> {
        KINDS.into_iter().find(|kind| field.bytes == kind.word().as_bytes())
    }

    /// In large or small letters, with blanks at the ends or without.
    pub(crate) fn resembling(text: &str) -> Option<Kind> {
        KINDS.into_iter().find(|kind| text.trim().eq_ignore_ascii_case(kind.word()))
    }
}

fn line_break() -> Advice {
    Advice::new("it has a line break", "take the line break out of the field")
}

/// What is wrong with the word.
fn word(field: &Field) -> Option<Advice> {
    let text = field.text();
    let found = shown(&text);
    if Kind::of(field).is_some() {
        return None;
    }
    Some(match Kind::resembling(&text) {
        _ if field.has_line_break() => line_break(),
        Some(kind) if text.trim() == text => Advice::new(
            format!("'{found}' has a capital letter"),
            format!("write {}, in small letters", kind.word()),
        ),
        Some(kind) => Advice::new(
            format!("'{found}' has blanks around it"),
            format!("write {} without them", kind.word()),
        ),
        None if text.is_empty() => Advice::new("it is empty", "write base, combination or status"),
        None => Advice::new(
            format!("'{found}' is none of the words base, combination and status"),
            "write one of the three",
        ),
    })
}

fn is_digits(text: &str) -> bool {
    !text.is_empty() && text.bytes().all(|byte| byte.is_ascii_digit())
}

/// Digits with a sign before them.
fn is_signed(text: &str) -> bool {
    text.strip_prefix(['+', '-', '\u{2212}']).is_some_and(is_digits)
}

/// Digits with a point or a comma among them, or with an exponent, as a spreadsheet may show a number.
fn is_decimal(text: &str) -> bool {
    let other = |letter: char| !letter.is_ascii_digit();
    text.starts_with(|letter: char| letter.is_ascii_digit())
        && text.chars().filter(|letter| other(*letter)).all(|letter| ".,'eE+-".contains(letter))
}

/// What is wrong with a number from 0 to the highest.
fn number(field: &Field, highest: u8) -> Option<Advice> {
    let text = field.text();
    let (found, range) = (shown(&text), format!("from 0 to {highest}"));
    if is_digits(&text) {
        return digits(&text, &found, highest);
    }
    Some(if field.has_line_break() {
        line_break()
    } else if text.trim() != text {
        Advice::new(
            format!("'{found}' has blanks around it"),
            format!("write a number {range}, without blanks"),
        )
    } else if is_signed(&text) {
        Advice::new(
            format!("'{found}' has a sign"),
            format!("write a number {range}, in digits alone"),
        )
    } else if is_decimal(&text) {
        Advice::new(
            format!("'{found}' is not in digits alone"),
            format!(
                "write a whole number {range}, and let the spreadsheet show it without decimals"
            ),
        )
    } else {
        Advice::new(
            format!("'{found}' is no number"),
            format!("write a number {range}, in digits alone"),
        )
    })
}

/// Digits may have a leading zero or be too many.
fn digits(text: &str, found: &str, highest: u8) -> Option<Advice> {
    let plain = text.trim_start_matches('0');
    let plain = if plain.is_empty() { "0" } else { plain };
    let fits = plain.parse().is_ok_and(|number: u8| number <= highest);
    match (fits, plain == text) {
        (true, true) => None,
        (true, false) => {
            Some(Advice::new(format!("'{found}' has a leading zero"), format!("write {plain}")))
        }
        (false, _) => Some(Advice::new(
            format!("'{found}' is outside 0 to {highest}"),
            format!("write a number from 0 to {highest}"),
        )),
    }
}

/// What is wrong with the persons of a rule; the first of them first.
fn persons(kind: Kind, left: &Field, right: &Field) -> Option<(Column, Advice)> {
    let highest = u8::try_from(limits::PERSONS - 1).unwrap_or(u8::MAX);
    let of_left = match (kind, left.bytes.is_empty()) {
        (Kind::Status, true) => Some(Advice::new(
            "it is empty",
            "write the status's person there, and leave right empty",
        )),
        (_, true) => {
            Some(Advice::new("it is empty", "write the number of the edge's first person"))
        }
        (_, false) => number(left, highest),
    };
    let of_right = match (kind, right.bytes.is_empty()) {
        (Kind::Status, true) => None,
        (Kind::Status, false) => Some(Advice::new(
            format!(
                "'{}' stands there, and a status has an empty right field",
                shown(&right.text())
            ),
            "empty the field; write base or combination if two persons are meant",
        )),
        (_, true) => Some(Advice::new(
            "it is empty, and an edge has two persons",
            "write the number of the second; write status if one person is meant",
        )),
        (_, false) => number(right, highest),
    };
    let left = of_left.map(|advice| (Column::Left, advice));
    left.or_else(|| of_right.map(|advice| (Column::Right, advice)))
}

fn citation(field: &Field) -> Option<Advice> {
    match field.bytes.is_empty() {
        true => Some(Advice::new("it is empty", "write the number of the rule's citation")),
        false => number(field, limits::CITATION),
    }
}

/// What is wrong with the four fields of a row.
pub(crate) fn advice(fields: [&Field; 4]) -> Option<(Option<Column>, Advice)> {
    let [kind, left, right, cited] = fields;
    if fields.iter().all(|field| field.bytes.is_empty()) {
        let advice = Advice::new("its four fields are empty", "delete this row of the sheet");
        return Some((None, advice));
    }
    let of_word = || word(kind).map(|advice| (Column::Kind, advice));
    let of_persons = || persons(Kind::of(kind)?, left, right);
    let of_citation = || citation(cited).map(|advice| (Column::Citation, advice));
    let found = of_word().or_else(of_persons).or_else(of_citation);
    found.map(|(column, advice)| (Some(column), advice))
}

/// Whether a plan has room for no more rules of a row's kind, with those of the rows before it.
pub(crate) fn limit(row: &Row, before: &[Row]) -> Option<Advice> {
    let of_row = |row: &Row| row.fields.first().and_then(Kind::of);
    let is_status = of_row(row)? == Kind::Status;
    let same = |other: &&Row| of_row(other).is_some_and(|kind| (kind == Kind::Status) == is_status);
    let (most, which, them) = match is_status {
        true => (limits::STATUSES, "33rd status", "statuses"),
        false => (limits::EDGES, "65th edge", "edges"),
    };
    let what = || format!("it is the {which}, and a plan has at most {most} {them}");
    let mend = "leave out what is not needed, or split the roster";
    (before.iter().filter(same).count() == most).then(|| Advice::new(what(), mend))
}
