//! Records as they lie in bytes: where each begins and which fields it has. It judges nothing; the check does that.

/// Which of the two files.
#[derive(Clone, Copy, Debug, PartialEq, Eq, Hash)]
pub enum File {
    Plan,
    Case,
}

/// What a field of a record takes.
#[derive(Clone, Copy)]
enum Field {
    /// So many bytes.
    Bytes(usize),
    /// A count, and so many bytes for each entry.
    List(usize),
}

const BYTE: Field = Field::Bytes(1);
const MASK: Field = Field::Bytes(8);
const FLAG: Field = Field::Bytes(0);
const ELECTION: Field = Field::Bytes(4);
const BYTES: Field = Field::List(1);
const PAIRS: Field = Field::List(2);

/// The fields of each kind, in bit order.
const PLAN: [&[Field]; 8] = [
    &[BYTE, BYTE],
    &[BYTE, BYTES],
    &[BYTE, BYTE, BYTES, BYTES, BYTE],
    &[BYTE, BYTE, BYTE, BYTE, BYTES, FLAG],
    &[MASK, BYTE, BYTE, ELECTION, PAIRS, BYTES],
    &[MASK, BYTE, BYTE, BYTE, BYTE, ELECTION],
    &[MASK, BYTE, BYTE],
    &[BYTE, BYTE, BYTE],
];

const CASE: [&[Field]; 5] = [
    &[BYTE, BYTE, BYTE, FLAG, MASK, BYTE, Field::Bytes(2)],
    &[BYTE, BYTE, BYTE],
    &[BYTE, BYTE, PAIRS],
    &[BYTE, BYTE, BYTE],
    &[BYTE],
];

const PLAN_KINDS: [&str; 8] =
    ["the heading", "a fact", "a node", "an edge", "a cut", "an attachment", "a bar", "a status"];
const CASE_KINDS: [&str; 5] =
    ["the heading", "a family", "a boolean", "a relation", "a constraint"];

impl File {
    fn fields(self, kind: u8) -> Option<&'static [Field]> {
        let at = usize::from(kind).checked_sub(1)?;
        match self {
            File::Plan => PLAN.get(at).copied(),
            File::Case => CASE.get(at).copied(),
        }
    }

    /// What a record of this kind is called; none for a kind that the file does not know.
    pub fn kind_name(self, kind: u8) -> Option<&'static str> {
        let at = usize::from(kind).checked_sub(1)?;
        match self {
            File::Plan => PLAN_KINDS.get(at).copied(),
            File::Case => CASE_KINDS.get(at).copied(),
        }
    }

    /// The bits that a kind knows.
    pub(crate) fn listed(self, kind: u8) -> u8 {
        let count = self.fields(kind).map_or(0, |fields| fields.len());
        (0..count).fold(0, |all, bit| all | 1 << bit)
    }
}

/// A record: its kind, its bits, and the bytes of each field whose bit stands. A list comes without its count.
#[derive(Clone, Copy, Debug)]
pub(crate) struct Record<'a> {
    pub(crate) kind: u8,
    fields: [Option<&'a [u8]>; 8],
}

impl<'a> Record<'a> {
    pub(crate) fn field(&self, bit: usize) -> Option<&'a [u8]> {
        self.fields.get(bit).copied().flatten()
    }

    pub(crate) fn has(&self, bit: usize) -> bool {
        self.field(bit).is_some()
    }

    pub(crate) fn byte(&self, bit: usize) -> Option<u8> {
        self.field(bit)?.first().copied()
    }

    pub(crate) fn mask(&self, bit: usize) -> Option<u64> {
        self.field(bit)?.first_chunk::<8>().map(|bytes| u64::from_le_bytes(*bytes))
    }

    /// The entries of a list; none if it is absent.
    pub(crate) fn bytes(&self, bit: usize) -> &'a [u8] {
        self.field(bit).unwrap_or(&[])
    }
}

/// Goes over the records of a file, up to the first that is cut short or of no known kind or bit.
#[derive(Clone, Debug)]
pub(crate) struct Reader<'a> {
    file: File,
    rest: &'a [u8],
}

impl<'a> Reader<'a> {
    pub(crate) fn new(file: File, bytes: &'a [u8]) -> Reader<'a> {
        Reader { file, rest: bytes }
    }

    /// The bytes not yet read.
    pub(crate) fn rest(&self) -> &'a [u8] {
        self.rest
    }

    fn record(&self) -> Option<(Record<'a>, &'a [u8])> {
        let (&[kind, bits], mut rest) = self.rest.split_first_chunk::<2>()?;
        let listed = self.file.fields(kind)?;
        if bits & !self.file.listed(kind) != 0 {
            return None;
        }
        let mut fields = [None; 8];
        for ((bit, place), &field) in fields.iter_mut().enumerate().zip(listed) {
            if bits >> bit & 1 == 1 {
                let (bytes, after) = take(field, rest)?;
                *place = Some(bytes);
                rest = after;
            }
        }
        Some((Record { kind, fields }, rest))
    }
}

fn take(field: Field, rest: &[u8]) -> Option<(&[u8], &[u8])> {
    match field {
        Field::Bytes(count) => rest.split_at_checked(count),
        Field::List(size) => {
            let (&count, rest) = rest.split_first()?;
            rest.split_at_checked(usize::from(count) * size)
        }
    }
}

impl<'a> Iterator for Reader<'a> {
    type Item = Record<'a>;

    fn next(&mut self) -> Option<Record<'a>> {
        let (record, rest) = self.record()?;
        self.rest = rest;
        Some(record)
    }
}
