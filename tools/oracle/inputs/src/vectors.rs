//! One vector a line, as said in vectors/README.md:
//! op plan case world lines_len events_len refusal record count maximum lines events worlds linebytes eventbytes

use std::fmt::Write;

#[derive(Clone, Copy, Debug, PartialEq, Eq)]
pub enum Op {
    Check,
    Answer,
    Show,
}

/// An operation with everything it is lent.
#[derive(Clone, Debug, PartialEq, Eq)]
pub struct Call {
    pub op: Op,
    pub plan: Vec<u8>,
    pub case: Vec<u8>,
    pub world: u64,
    pub lines_len: usize,
    pub events_len: usize,
}

/// What it answers; the buffers past the given bytes are zero.
#[derive(Clone, Debug, Default, PartialEq, Eq)]
pub struct Expected {
    pub refusal: u8,
    pub record: u64,
    pub count: u64,
    pub maximum: u64,
    pub lines: u64,
    pub events: u64,
    pub worlds: u64,
    pub line_bytes: Vec<u8>,
    pub event_bytes: Vec<u8>,
}

#[derive(Clone, Debug, PartialEq, Eq)]
pub struct Vector {
    pub call: Call,
    pub expected: Expected,
}

pub fn to_hex(bytes: &[u8]) -> String {
    if bytes.is_empty() {
        return "-".to_string();
    }
    bytes.iter().fold(String::new(), |mut text, byte| {
        let _ = write!(text, "{byte:02x}");
        text
    })
}

pub fn from_hex(text: &str) -> Option<Vec<u8>> {
    if text == "-" {
        return Some(Vec::new());
    }
    let digits = text.as_bytes();
    if digits.len() % 2 != 0 {
        return None;
    }
    let digit = |byte: u8| (byte as char).to_digit(16).map(|value| value as u8);
    digits.chunks(2).map(|pair| Some(digit(pair[0])? << 4 | digit(pair[1])?)).collect()
}

impl Op {
    fn name(self) -> &'static str {
        match self {
            Op::Check => "check",
            Op::Answer => "answer",
            Op::Show => "show",
        }
    }

    fn parse(text: &str) -> Option<Op> {
        [Op::Check, Op::Answer, Op::Show].into_iter().find(|op| op.name() == text)
    }
}

impl Vector {
    pub fn parse(line: &str) -> Option<Vector> {
        let (op, rest) = line.split_once(' ')?;
        Vector::parse_rest(Op::parse(op)?, rest)
    }

    /// From the fields after the operation's name.
    pub(crate) fn parse_rest(op: Op, fields: &str) -> Option<Vector> {
        let fields: Vec<&str> = fields.split(' ').collect();
        let &[plan, case, world, lines_len, events_len, ref rest @ ..] = fields.as_slice() else {
            return None;
        };
        let &[refusal, record, count, maximum, lines, events, worlds, line_bytes, event_bytes] =
            rest
        else {
            return None;
        };
        let call = Call {
            op,
            plan: from_hex(plan)?,
            case: from_hex(case)?,
            world: world.parse().ok()?,
            lines_len: lines_len.parse().ok()?,
            events_len: events_len.parse().ok()?,
        };
        let expected = Expected {
            refusal: refusal.parse().ok()?,
            record: record.parse().ok()?,
            count: count.parse().ok()?,
            maximum: maximum.parse().ok()?,
            lines: lines.parse().ok()?,
            events: events.parse().ok()?,
            worlds: worlds.parse().ok()?,
            line_bytes: from_hex(line_bytes)?,
            event_bytes: from_hex(event_bytes)?,
        };
        Some(Vector { call, expected })
    }

    pub fn print(&self) -> String {
        format!("{} {}", self.call.op.name(), self.print_rest())
    }

    /// The fields after the operation's name.
    pub(crate) fn print_rest(&self) -> String {
        let (call, want) = (&self.call, &self.expected);
        format!(
            "{} {} {} {} {} {} {} {} {} {} {} {} {} {}",
            to_hex(&call.plan),
            to_hex(&call.case),
            call.world,
            call.lines_len,
            call.events_len,
            want.refusal,
            want.record,
            want.count,
            want.maximum,
            want.lines,
            want.events,
            want.worlds,
            to_hex(&want.line_bytes),
            to_hex(&want.event_bytes)
        )
    }
}
