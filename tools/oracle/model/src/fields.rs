//! What billing and the lister read of a line.

use crate::report::LINE;

/// Kinds of lines whose person has a block.
pub const DECIDED: u8 = 0;
pub const ROLE_OPEN: u8 = 2;

#[derive(Clone, Copy, Debug, PartialEq, Eq)]
pub struct Fields {
    pub person: u8,
    pub kind: u8,
    pub role: u8,
    /// 0 for none.
    pub block: u64,
}

impl Fields {
    fn read(bytes: &[u8]) -> Fields {
        let block = bytes[3..11].try_into().expect("eight bytes");
        let (person, kind, role) = (bytes[0], bytes[1], bytes[2]);
        Fields { person, kind, role, block: u64::from_le_bytes(block) }
    }

    /// Of each line in the buffer.
    pub fn each(lines: &[u8]) -> impl Iterator<Item = Fields> {
        lines.chunks_exact(LINE).map(Fields::read)
    }
}
