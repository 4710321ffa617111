//! What the lister prints of a plan and a case.

use std::fmt;

use crate::foreign;
use crate::operations::{EVENTS_LENGTH, LINES_LENGTH};

/// Bytes that hold every text of the lister.
pub const TEXT_LENGTH: usize = 13216;

/// The lister's text: a heading, a row for each person and the count of households, behind the word `units`; or a single row of a refusal. A line
/// feed ends each row.
#[derive(Clone, Debug, PartialEq, Eq)]
pub struct Listing {
    pub text: String,
    /// Whether the text is `refused`, number and record.
    pub refused: bool,
}

impl Listing {
    /// The number of the last row: how many units are households. None for a refusal.
    pub fn households(&self) -> Option<u64> {
        self.text.lines().last()?.strip_prefix("units ")?.parse().ok()
    }
}

impl fmt::Display for Listing {
    fn fmt(&self, to: &mut fmt::Formatter) -> fmt::Result {
        write!(to, "{}", self.text)
    }
}

/// Lists a case as the lister does, byte for byte: it lends room for 64 lines and 4,096 events, so a case with more events is refused 13.
pub fn list(plan: &[u8], case: &[u8]) -> Listing {
    let mut lines = [0; LINES_LENGTH];
    let mut events = vec![0; EVENTS_LENGTH];
    let mut text = vec![0; TEXT_LENGTH];
    let length = foreign::list(plan, case, &mut lines, &mut events, &mut text);
    text.truncate(length);
    let text = String::from_utf8_lossy(&text).into_owned();
    Listing { refused: text.starts_with("refused"), text }
}
