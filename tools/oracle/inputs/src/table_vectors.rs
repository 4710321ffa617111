//! Vectors of the operation `import`: the fields of an answer's in their places, as said in vectors/README.md:
//! import table - 0 room 0 refusal row 0 0 length 0 0 plan -

use crate::vectors::{Call, Expected, Op, Vector};

#[derive(Clone, Debug, PartialEq, Eq)]
pub struct TableCall {
    pub table: Vec<u8>,
    /// The length of the lent buffer.
    pub room: usize,
}

/// What an import answers; the buffer past the plan is zero.
#[derive(Clone, Debug, Default, PartialEq, Eq)]
pub struct TableExpected {
    pub refusal: u8,
    pub row: u64,
    pub plan: Vec<u8>,
}

#[derive(Clone, Debug, PartialEq, Eq)]
pub struct TableVector {
    pub call: TableCall,
    pub expected: TableExpected,
}

impl TableVector {
    pub fn parse(line: &str) -> Option<TableVector> {
        let Vector { call, expected } =
            Vector::parse_rest(Op::Answer, line.strip_prefix("import ")?)?;
        let vector = TableVector {
            call: TableCall { table: call.plan, room: call.lines_len },
            expected: TableExpected {
                refusal: expected.refusal,
                row: expected.record,
                plan: expected.line_bytes,
            },
        };
        // a field that no import has, or another length than the plan's, is not printed
        (vector.print() == line).then_some(vector)
    }

    pub fn print(&self) -> String {
        let TableVector { call, expected } = self;
        let call = Call {
            op: Op::Answer,
            plan: call.table.clone(),
            case: Vec::new(),
            world: 0,
            lines_len: call.room,
            events_len: 0,
        };
        let expected = Expected {
            refusal: expected.refusal,
            record: expected.row,
            lines: expected.plan.len() as u64,
            line_bytes: expected.plan.clone(),
            ..Expected::default()
        };
        format!("import {}", Vector { call, expected }.print_rest())
    }
}
