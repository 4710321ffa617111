//! Vectors of the operation `list`: the fields of an answer's in their places, as said in vectors/README.md:
//! list plan case 0 lines_len events_len 0 0 0 0 length 0 0 text -

use crate::vectors::{Call, Expected, Op, Vector};

#[derive(Clone, Debug, PartialEq, Eq)]
pub struct ListVector {
    /// The answer that the text is of.
    pub call: Call,
    pub text: Vec<u8>,
}

impl ListVector {
    pub fn parse(line: &str) -> Option<ListVector> {
        let Vector { call, expected } =
            Vector::parse_rest(Op::Answer, line.strip_prefix("list ")?)?;
        let vector = ListVector { call, text: expected.line_bytes };
        // a field that no list has, or another length than the text's, is not printed
        (vector.call.world == 0 && vector.print() == line).then_some(vector)
    }

    pub fn print(&self) -> String {
        let expected = Expected {
            lines: self.text.len() as u64,
            line_bytes: self.text.clone(),
            ..Expected::default()
        };
        format!("list {}", Vector { call: self.call.clone(), expected }.print_rest())
    }

    /// The number of a text that is a refusal; 0 of a table.
    pub fn refusal(&self) -> u8 {
        let text = String::from_utf8_lossy(&self.text);
        let number = text.strip_prefix("refused ").and_then(|row| row.split(' ').next());
        number.map_or(0, |number| number.parse().expect("a number"))
    }
}
