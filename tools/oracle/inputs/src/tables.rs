//! Tables that are imported as plans: good ones, as rows of fields.

use std::iter::repeat_n;

use crate::random::Random;

/// Numbers of persons and of citations.
pub const PERSONS: usize = 64;
pub const CITATIONS: usize = 64;

/// Rows of edges and of statuses that a table may have.
pub const EDGES: usize = 64;
pub const STATUSES: usize = 32;

pub const HEADER: [&str; 4] = ["kind", "left", "right", "citation"];
pub const CRLF: &[u8] = b"\r\n";

/// Its text as it is, or between quotes, with each quote in it doubled.
#[derive(Clone, Debug)]
pub struct Field {
    pub text: Vec<u8>,
    pub quoted: bool,
}

#[derive(Clone, Debug)]
pub struct Row {
    pub fields: Vec<Field>,
    pub end: &'static [u8],
}

#[derive(Clone, Debug)]
pub struct Table {
    /// What stands before the header.
    pub front: &'static [u8],
    pub rows: Vec<Row>,
    /// What parts fields.
    pub comma: u8,
}

impl Field {
    fn bytes(&self) -> Vec<u8> {
        if !self.quoted {
            return self.text.clone();
        }
        let doubled = |&byte: &u8| repeat_n(byte, if byte == b'"' { 2 } else { 1 });
        let text: Vec<u8> = self.text.iter().flat_map(doubled).collect();
        [b"\"", &text[..], b"\""].concat()
    }
}

impl Row {
    pub fn new(texts: [&str; 4]) -> Row {
        let field = |text: &str| Field { text: text.into(), quoted: false };
        Row { fields: texts.map(field).into(), end: CRLF }
    }
}

impl Table {
    pub fn bytes(&self) -> Vec<u8> {
        let mut bytes = self.front.to_vec();
        for row in &self.rows {
            let fields: Vec<Vec<u8>> = row.fields.iter().map(Field::bytes).collect();
            bytes.extend(fields.join(&self.comma));
            bytes.extend(row.end);
        }
        bytes
    }
}

/// Any number below the bound; often the lowest, the highest, and around ten.
fn number(random: &mut Random, bound: usize) -> String {
    let number = match random.below(3) {
        0 => random.pick(&[0, 9, 10, bound - 1]),
        _ => random.below(bound),
    };
    number.to_string()
}

/// A rule's row.
pub fn rule(random: &mut Random, word: &str) -> Row {
    let (left, right) = (number(random, PERSONS), number(random, PERSONS));
    let right = if word == "status" { "" } else { &right };
    Row::new([word, &left, right, &number(random, CITATIONS)])
}

/// So many edges and statuses in any order; none, some or all of the fields quoted, the last row's end there or not.
pub fn with(random: &mut Random, edges: usize, statuses: usize) -> Table {
    let mut words: Vec<&str> = (0..edges).map(|_| random.pick(&["base", "combination"])).collect();
    words.extend(repeat_n("status", statuses));
    random.shuffle(&mut words);
    let mut rows = vec![Row::new(HEADER)];
    rows.extend(words.into_iter().map(|word| rule(random, word)));
    let quoting = random.pick(&[0, 0, 10, 50, 100]);
    for field in rows.iter_mut().flat_map(|row| &mut row.fields) {
        field.quoted = random.percent(quoting);
    }
    if let (Some(last), true) = (rows.last_mut(), random.percent(40)) {
        last.end = b"";
    }
    Table { front: b"", rows, comma: b',' }
}

/// Few rows, mostly; none, or as many as there may be, or nearly so.
pub fn good(random: &mut Random) -> Table {
    let (edges, statuses) = match random.below(40) {
        0 | 1 => (0, 0),
        2 => (EDGES, STATUSES),
        3 => (random.between(EDGES - 2, EDGES), random.below(STATUSES + 1)),
        4 => (random.below(EDGES + 1), random.between(STATUSES - 2, STATUSES)),
        5..=8 => (random.below(24), random.below(12)),
        _ => (random.below(5), random.below(4)),
    };
    with(random, edges, statuses)
}
