//! What goes wrong in tables: in a field, in its quotes, in a row or its end, in the whole table, in any byte.

use crate::random::Random;
use crate::tables::{self, CITATIONS, CRLF, EDGES, Field, PERSONS, Row, STATUSES, Table};

/// Bytes that mean something in a table, or nothing in any.
const BYTES: [u8; 22] = [
    b'"', b'"', b'"', b',', b',', b'\r', b'\r', b'\n', b'\n', b'0', b'1', b'6', b'9', b' ', b'\t',
    b';', b'a', b'B', b'-', 0, 127, 255,
];

const WORDS: [&str; 7] = ["base", "combination", "status", "kind", "left", "right", "citation"];

/// Around the ranges of persons and citations, and of a byte.
fn around(random: &mut Random) -> usize {
    let edge = random.pick(&[10, 10 * PERSONS, PERSONS, CITATIONS, 100, 128, 256, 512, 1000]);
    edge - 1 + random.below(3)
}

/// A number that would fit if it were cut to so many bits.
fn wrapping(random: &mut Random) -> u128 {
    let bits = random.pick(&[8, 16, 32, 64, 65, 100]);
    (1u128 << bits) * random.between(1, 3) as u128 + random.below(PERSONS) as u128
}

/// Digits in a row, up to some hundreds.
fn digits(random: &mut Random) -> String {
    let length = random.pick(&[3, 4, 5, 10, 19, 20, 21, 39, 40, 100, 400]);
    match random.below(4) {
        0 => "0".repeat(length),
        1 => "1".to_string() + &"0".repeat(length),
        2 => "0".repeat(length) + "7",
        _ => (0..length).map(|_| char::from(b'0' + random.byte(10))).collect(),
    }
}

fn number(random: &mut Random) -> String {
    let good = random.below(PERSONS);
    match random.below(8) {
        0 | 1 => around(random).to_string(),
        2 => "0".repeat(random.between(1, 3)) + &good.to_string(),
        3 => wrapping(random).to_string(),
        4 => digits(random),
        5 => {
            random.pick(&["+", "-", " ", "\t", "0x", "'", "\u{a0}"]).to_string() + &good.to_string()
        }
        6 => good.to_string() + random.pick(&[" ", ".", ".0", "e0", "h", "\0", "\u{a0}"]),
        _ => String::new(),
    }
}

/// Capitals, cut, longer, with blanks, or another's.
fn word(random: &mut Random, good: &[u8]) -> Vec<u8> {
    let mut word = good.to_vec();
    let at = random.below(word.len());
    match random.below(7) {
        0 => word.iter_mut().take(1).for_each(u8::make_ascii_uppercase),
        1 => word.make_ascii_uppercase(),
        2 => word.truncate(at),
        3 => word.insert(at, random.pick(b" sbe")),
        4 => word.push(random.pick(b" s0\t")),
        5 => word.clear(),
        _ => word = random.pick(&WORDS).into(),
    }
    word
}

fn bytes(random: &mut Random) -> Vec<u8> {
    (0..random.between(1, 4)).map(|_| random.pick(&BYTES)).collect()
}

/// Another text, by what stands there.
fn spoil_text(random: &mut Random, text: &mut Vec<u8>) {
    let letters = text.first().is_some_and(u8::is_ascii_lowercase);
    match random.below(8) {
        0 => *text = bytes(random),
        1 => text.extend(bytes(random)),
        _ if letters => *text = word(random, text),
        _ => *text = number(random).into(),
    }
}

/// Quotes where none may be, or one alone.
fn spoil_quotes(random: &mut Random, field: &mut Field) {
    const FRONTS: [&[u8]; 6] = [b"", b"\"", b"\"\"", b" \"", b"\"\"\"", b"x\""];
    const BACKS: [&[u8]; 7] = [b"", b"\"", b"\"\"", b"\" ", b"\"x", b"\"\"\"", b"\"\r"];
    field.quoted = false;
    field.text = [random.pick(&FRONTS), &field.text[..], random.pick(&BACKS)].concat();
}

/// A row's end that is none, or two.
fn spoil_end(random: &mut Random, row: &mut Row) {
    const ENDS: [&[u8]; 9] =
        [b"\n", b"\r", b"", b"\n\r", b"\r\r\n", b"\r\n\n", b"\r\n\r\n", b"\r\n\r", b" \r\n"];
    row.end = random.pick(&ENDS);
}

/// Fields too few or too many, in another order, or none at all.
fn spoil_fields(random: &mut Random, fields: &mut Vec<Field>) {
    let at = random.below(fields.len());
    let to = random.below(fields.len());
    match random.below(5) {
        0 => drop(fields.drain(at..)),
        1 if at < fields.len() => drop(fields.remove(at)),
        2 if at < fields.len() => fields.insert(to, fields[at].clone()),
        3 if at < fields.len() => fields.swap(at, to),
        _ => fields.insert(at, Field { text: Vec::new(), quoted: random.percent(30) }),
    }
}

/// More rows of a sort than there may be, somewhere among the others.
fn crowd(random: &mut Random, rows: &mut Vec<Row>) {
    let (word, most) =
        random.pick(&[("base", EDGES), ("combination", EDGES), ("status", STATUSES)]);
    let at = random.between(1, rows.len());
    let more: Vec<Row> = (0..most + random.below(3)).map(|_| tables::rule(random, word)).collect();
    if let Some(last) = rows.last_mut() {
        last.end = CRLF;
    }
    rows.splice(at..at, more);
}

fn spoil_whole(random: &mut Random, table: &mut Table) {
    const FRONTS: [&[u8]; 5] = [b"\xef\xbb\xbf", b"\xff\xfe", b" ", b"\r\n", b"\""];
    let at = random.below(table.rows.len());
    match random.below(6) {
        0 => table.front = random.pick(&FRONTS),
        1 => table.comma = random.pick(b";\t |"),
        2 => drop(table.rows.remove(at)),
        3 => table.rows.insert(at, table.rows[at].clone()),
        _ => crowd(random, &mut table.rows),
    }
}

/// Once, and further down rather than in the header.
fn spoil(random: &mut Random, table: &mut Table) {
    let at = random.below(table.rows.len()).max(random.below(table.rows.len()));
    let Some(row) = table.rows.get_mut(at) else {
        return;
    };
    let column = random.below(row.fields.len());
    match (random.below(10), row.fields.get_mut(column)) {
        (0, _) => spoil_whole(random, table),
        (1..=5, Some(field)) => spoil_text(random, &mut field.text),
        (6 | 7, Some(field)) => spoil_quotes(random, field),
        (8, _) => spoil_end(random, row),
        _ => spoil_fields(random, &mut row.fields),
    }
}

/// One byte, or a few in a row, changed, left out, doubled, swapped or added.
fn spoil_bytes(random: &mut Random, bytes: &mut Vec<u8>) {
    let at = random.below(bytes.len());
    let end = (at + random.between(1, 6)).min(bytes.len());
    match random.below(9) {
        _ if bytes.is_empty() => bytes.push(random.pick(&BYTES)),
        0 => bytes[at] = random.byte(256),
        1 => bytes[at] = random.pick(&BYTES),
        2 => drop(bytes.remove(at)),
        3 => drop(bytes.drain(at..end)),
        4 => bytes.insert(at, bytes[at]),
        5 => bytes.swap(at, end - 1),
        6 => bytes.truncate(at),
        7 => drop(bytes.splice(at..end, self::bytes(random))),
        _ => bytes.insert(at, random.pick(&BYTES)),
    }
}

/// A good table with one thing wrong, or a few; now and then it is still good.
pub fn broken(random: &mut Random) -> Vec<u8> {
    let mut table = tables::good(random);
    let times = random.pick(&[1, 1, 1, 2, 3]);
    if random.percent(70) {
        (0..times).for_each(|_| spoil(random, &mut table));
        return table.bytes();
    }
    let mut bytes = table.bytes();
    (0..times).for_each(|_| spoil_bytes(random, &mut bytes));
    bytes
}
