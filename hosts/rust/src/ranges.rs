//! Names and ranges of the fields of each kind of record, so that a refusal can say which value is wrong.

use crate::read::{File, Record};

/// What a field may hold.
#[derive(Clone, Copy)]
enum Values {
    /// One byte.
    Within(u8, u8),
    /// Two bytes, up to 4,096.
    Worlds,
    /// So many entries; each byte of an entry in its range.
    List(usize, &'static [(u8, u8)]),
    /// Bytes in their ranges.
    Row(&'static [(u8, u8)]),
    /// Anything.
    Any,
}

type Named = (&'static str, Values);

const ANY: Values = Values::Any;
const PERSON: Values = Values::Within(0, 63);
const CITATION: Values = Values::Within(0, 63);
const TRUTH: Values = Values::Within(0, 1);
const BYTE: (u8, u8) = (0, 255);
const NODES: Values = Values::List(16, &[BYTE]);
const ELECTION: Named = ("election", Values::Row(&[BYTE, (1, 255), (0, 2), (0, 63)]));

const PLAN: [&[Named]; 8] = [
    &[("roster relation", ANY), ("base-chain citation", CITATION)],
    &[("family", ANY), ("tuple", Values::List(4, &[(0, 63)]))],
    &[("literal", TRUTH), ("fact", ANY), ("And list", NODES), ("Or list", NODES), ("Not", ANY)],
    &[
        ("left", PERSON),
        ("right", PERSON),
        ("condition", ANY),
        ("citation", CITATION),
        ("list of defeaters", NODES),
    ],
    &[
        ("members", ANY),
        ("condition", ANY),
        ("citation", CITATION),
        ELECTION,
        ("list of decisions", Values::List(64, &[BYTE, (1, 3)])),
        ("list of preceded cuts", NODES),
    ],
    &[
        ("members", ANY),
        ("anchor", PERSON),
        ("condition", ANY),
        ("citation", CITATION),
        ("actor", Values::Within(1, 255)),
        ELECTION,
    ],
    &[("members", ANY), ("condition", ANY), ("citation", CITATION)],
    &[("person", PERSON), ("condition", ANY), ("citation", CITATION)],
];

const CASE: [&[Named]; 5] = [
    &[
        ("relation", ANY),
        ("scope", ANY),
        ("segment", ANY),
        ("segment complete", ANY),
        ("roster", ANY),
        ("completeness evidence", CITATION),
        ("most worlds", Values::Worlds),
    ],
    &[("number", ANY), ("scope", ANY), ("completeness evidence", CITATION)],
    &[
        ("fact", ANY),
        ("explicit-unknown evidence", CITATION),
        ("list of observations", Values::List(16, &[(0, 1), (0, 63)])),
    ],
    &[("fact", ANY), ("value", TRUTH), ("evidence", CITATION)],
    &[("node", ANY)],
];

fn fields(file: File, kind: u8) -> &'static [Named] {
    let at = usize::from(kind).saturating_sub(1);
    let found = match file {
        File::Plan => PLAN.get(at),
        File::Case => CASE.get(at),
    };
    found.copied().unwrap_or(&[])
}

/// What the field of a bit is called.
pub(crate) fn field_name(file: File, kind: u8, bit: usize) -> Option<&'static str> {
    fields(file, kind).get(bit).map(|(name, _)| *name)
}

/// The first field with a value or a count outside its range, and what is wrong with it.
pub(crate) fn outside(file: File, record: &Record) -> Option<String> {
    let mut named = fields(file, record.kind).iter().enumerate();
    named.find_map(|(bit, (name, values))| {
        let wrong = wrong(*values, record.field(bit)?)?;
        Some(format!("its {name} {wrong}"))
    })
}

fn wrong(values: Values, bytes: &[u8]) -> Option<String> {
    match values {
        Values::Any => None,
        Values::Within(least, most) => row(bytes, &[(least, most)]),
        Values::Worlds => {
            let most = u16::from_le_bytes(*bytes.first_chunk()?);
            (most > 4096).then(|| format!("are {most}, above 4096"))
        }
        Values::Row(ranges) => row(bytes, ranges),
        Values::List(most, ranges) => {
            let count = bytes.len() / ranges.len().max(1);
            let long = (count > most).then(|| format!("has {count} entries, more than {most}"));
            long.or_else(|| bytes.chunks(ranges.len().max(1)).find_map(|entry| row(entry, ranges)))
        }
    }
}

fn row(bytes: &[u8], ranges: &[(u8, u8)]) -> Option<String> {
    let mut pairs = bytes.iter().zip(ranges);
    let (value, (least, most)) =
        pairs.find(|(value, (least, most))| !(*least..=*most).contains(*value))?;
    Some(format!("has {value}, outside {least} to {most}"))
}
