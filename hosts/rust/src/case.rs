//! A case of a plan.

/// A finished case: its bytes.
#[derive(Clone, Debug, PartialEq, Eq)]
pub struct Case {
    bytes: Vec<u8>,
}

impl Case {
    pub(crate) fn of(bytes: Vec<u8>) -> Case {
        Case { bytes }
    }

    /// What case.bin holds.
    pub fn bytes(&self) -> &[u8] {
        &self.bytes
    }
}

impl AsRef<[u8]> for Case {
    fn as_ref(&self) -> &[u8] {
        &self.bytes
    }
}
