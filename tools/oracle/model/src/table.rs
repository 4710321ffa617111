//! A plan drafted in a table: Ticket 2 of document 02, from its words, as an
//! automaton that takes the table byte by byte.

use crate::records::{MOST_CITATION, MOST_EDGES, MOST_PERSON, MOST_STATUSES};

const BROKEN_ROW: u8 = 16;
const DOES_NOT_FIT: u8 = 17;

/// What an import tells beside the bytes of its buffer.
#[derive(Clone, Copy, Debug, Default, PartialEq, Eq)]
pub struct Made {
    pub refusal: u8,
    /// The row that 16 names; the header is row 0.
    pub row: u64,
    /// Bytes of the plan.
    pub length: u64,
}

/// Makes a plan of a table: its bytes at the start of the buffer, zeros past
/// them. The whole table is read before the buffer's length is asked for.
pub fn import(table: &[u8], plan: &mut [u8]) -> Made {
    plan.fill(0);
    let bytes = match plan_of(table) {
        Ok(bytes) => bytes,
        Err(row) => return Made { refusal: BROKEN_ROW, row, length: 0 },
    };
    let Some(room) = plan.get_mut(..bytes.len()) else {
        return Made { refusal: DOES_NOT_FIT, ..Made::default() };
    };
    room.copy_from_slice(&bytes);
    Made { length: bytes.len() as u64, ..Made::default() }
}

/// The plan's bytes, or the first row that breaks.
fn plan_of(table: &[u8]) -> Result<Vec<u8>, u64> {
    let mut machine = Machine::new();
    let taken = table.iter().try_for_each(|&byte| machine.take(byte));
    match taken.and_then(|()| machine.end()) {
        Ok(()) => Ok(machine.plan()),
        Err(Broken) => Err(machine.row),
    }
}

/// Relation 1 and no chain citation; the one node, the literal 1.
const HEADING: [u8; 3] = [1, 0b1, 1];
const NODE: [u8; 3] = [3, 0b1, 1];
const ALWAYS: u8 = 0;

/// Fields of a row.
const COLUMNS: usize = 4;

/// The header's fields, then the words of a rule.
const TEXTS: [&[u8]; 7] =
    [b"kind", b"left", b"right", b"citation", b"base", b"combination", b"status"];
const WORDS: [(usize, Kind); 3] = [(4, Kind::Base), (5, Kind::Combination), (6, Kind::Status)];

#[derive(Clone, Copy, PartialEq, Eq)]
enum Kind {
    Base,
    Combination,
    Status,
}

/// The row that is being read is turned away.
struct Broken;

fn stands(holds: bool) -> Result<(), Broken> {
    if holds { Ok(()) } else { Err(Broken) }
}

/// What a field's bytes so far may become.
struct Text {
    length: usize,
    /// Of TEXTS, those that begin with these bytes.
    begun: [bool; TEXTS.len()],
    number: Number,
}

#[derive(Clone, Copy)]
enum Number {
    Empty,
    Digits(u8),
    /// Not a digit, a leading zero, or more than any range has.
    Wrong,
}

impl Number {
    fn take(self, byte: u8) -> Number {
        if !byte.is_ascii_digit() {
            return Number::Wrong;
        }
        let digit = byte - b'0';
        let grown = match self {
            Number::Empty => Some(digit),
            Number::Digits(0) | Number::Wrong => None,
            Number::Digits(so_far) => so_far.checked_mul(10).and_then(|n| n.checked_add(digit)),
        };
        grown.map_or(Number::Wrong, Number::Digits)
    }
}

impl Text {
    fn new() -> Text {
        Text { length: 0, begun: [true; TEXTS.len()], number: Number::Empty }
    }

    fn take(&mut self, byte: u8) {
        for (begun, text) in self.begun.iter_mut().zip(TEXTS) {
            *begun &= text.get(self.length) == Some(&byte);
        }
        self.number = self.number.take(byte);
        self.length += 1;
    }

    fn is(&self, text: usize) -> bool {
        self.begun[text] && TEXTS[text].len() == self.length
    }

    fn word(&self) -> Result<Kind, Broken> {
        let found = WORDS.iter().find(|(text, _)| self.is(*text));
        found.map(|(_, kind)| *kind).ok_or(Broken)
    }

    fn number(&self, most: u8) -> Result<u8, Broken> {
        match self.number {
            Number::Digits(number) if number <= most => Ok(number),
            _ => Err(Broken),
        }
    }
}

/// Where in its row the automaton stands.
#[derive(Clone, Copy)]
enum Place {
    /// Before the row's first byte.
    Row,
    /// Behind a comma.
    Field,
    /// In a field that began without a quote.
    Plain,
    /// Within quotes.
    Quoted,
    /// Behind a quote within quotes, which ends the field unless a second one follows.
    Closed,
    /// Behind the CR of a row's end.
    Return,
}

struct Machine {
    place: Place,
    row: u64,
    /// Fields of the row that have ended.
    column: usize,
    /// The field that is being read.
    text: Text,
    /// What the row's fields gave: its word; left, right and citation.
    kind: Kind,
    numbers: [u8; 3],
    /// The rules of the rows that have ended.
    edges: Vec<[u8; 6]>,
    statuses: Vec<[u8; 5]>,
}

impl Machine {
    fn new() -> Machine {
        Machine {
            place: Place::Row,
            row: 0,
            column: 0,
            text: Text::new(),
            kind: Kind::Base,
            numbers: [0; 3],
            edges: Vec::new(),
            statuses: Vec::new(),
        }
    }

    fn take(&mut self, byte: u8) -> Result<(), Broken> {
        use Place::*;
        self.place = match (self.place, byte) {
            (Row | Field, b'"') => Quoted,
            (Quoted, b'"') => Closed,
            (Closed, b'"') | (Quoted, _) => {
                self.text.take(byte);
                Quoted
            }
            (Return, b'\n') => {
                self.end_row()?;
                Row
            }
            (Return, _) | (_, b'\n') | (Plain, b'"') => return Err(Broken),
            (_, b',') => {
                self.end_field()?;
                Field
            }
            (_, b'\r') => {
                self.end_field()?;
                Return
            }
            (Closed, _) => return Err(Broken),
            (Row | Field | Plain, _) => {
                self.text.take(byte);
                Plain
            }
        };
        Ok(())
    }

    /// The table's end: it ends the last row, which may lack its CRLF, and
    /// nothing behind a CRLF is no row.
    fn end(&mut self) -> Result<(), Broken> {
        match self.place {
            Place::Row => stands(self.row > 0),
            Place::Quoted | Place::Return => Err(Broken),
            Place::Field | Place::Plain | Place::Closed => {
                self.end_field()?;
                self.end_row()
            }
        }
    }

    fn end_field(&mut self) -> Result<(), Broken> {
        let text = std::mem::replace(&mut self.text, Text::new());
        match (self.row, self.column) {
            (_, COLUMNS..) => return Err(Broken),
            (0, column) => stands(text.is(column))?,
            (_, 0) => self.kind = text.word()?,
            (_, 2) if self.kind == Kind::Status => stands(text.length == 0)?,
            (_, 3) => self.numbers[2] = text.number(MOST_CITATION)?,
            (_, column) => self.numbers[column - 1] = text.number(MOST_PERSON)?,
        }
        self.column += 1;
        Ok(())
    }

    fn end_row(&mut self) -> Result<(), Broken> {
        stands(self.column == COLUMNS)?;
        if self.row > 0 {
            self.add_rule();
        }
        stands(self.edges.len() <= MOST_EDGES && self.statuses.len() <= MOST_STATUSES)?;
        self.column = 0;
        self.row += 1;
        Ok(())
    }

    fn add_rule(&mut self) {
        let [left, right, citation] = self.numbers;
        match self.kind {
            Kind::Base => self.edges.push([4, 0b1111, left, right, ALWAYS, citation]),
            Kind::Combination => self.edges.push([4, 0b10_1111, left, right, ALWAYS, citation]),
            Kind::Status => self.statuses.push([8, 0b111, left, ALWAYS, citation]),
        }
    }

    /// Edges before statuses.
    fn plan(&self) -> Vec<u8> {
        let (edges, statuses) = (self.edges.concat(), self.statuses.concat());
        [&HEADING[..], &NODE, &edges, &statuses].concat()
    }
}
