//! Amounts as billing brings them: amounts.bin, or amounts.csv with a person a row.

mod columns;
mod csv;
mod table;

use std::error::Error;
use std::fmt;

use crate::case_records::CaseRecords;
use crate::limits;
use crate::names::Names;
use crate::operations::{Buffers, answer};
use crate::refusal::{Given, Reason, Refusal};

pub use table::{TableFault, read_table};

/// Bytes of an amount in a file.
const AMOUNT: usize = 4;

/// What a file of amounts holds.
#[derive(Clone, Debug, PartialEq, Eq)]
pub enum Amounts {
    /// amounts.bin: 4 bytes each, lowest first, in cents, one for each person of the roster in rising order.
    Bytes(Vec<u8>),
    /// The text of amounts.csv: see [`read_table`].
    Table(String),
}

/// Why there is no list of amounts.
#[derive(Clone, Debug, PartialEq, Eq)]
pub enum AmountsError {
    /// Plan or case is refused, or amounts.bin is no whole number of amounts (15).
    Refused(Refusal),
    /// What is wrong with the table, row by row.
    Table(Vec<TableFault>),
}

impl fmt::Display for AmountsError {
    fn fmt(&self, to: &mut fmt::Formatter) -> fmt::Result {
        match self {
            AmountsError::Refused(refusal) => write!(to, "{refusal}"),
            AmountsError::Table(faults) => {
                let faults: Vec<String> = faults.iter().map(TableFault::to_string).collect();
                write!(to, "{}", faults.join("; "))
            }
        }
    }
}

impl Error for AmountsError {}

impl From<Refusal> for AmountsError {
    fn from(refusal: Refusal) -> AmountsError {
        AmountsError::Refused(refusal)
    }
}

impl Amounts {
    /// The list for the roster of a case. What an answer is refused for comes before what is wrong with the amounts. Of a list from bytes
    /// [`pool`](crate::pool) says whether it is as long as the roster.
    pub fn list(&self, plan: &[u8], case: &[u8], names: &Names) -> Result<Vec<u32>, AmountsError> {
        match self {
            Amounts::Bytes(bytes) => list(bytes).ok_or_else(|| {
                AmountsError::Refused(no_list(plan, case, Given::Bytes(bytes.len())))
            }),
            Amounts::Table(text) => {
                let roster = CaseRecords::read(case).unwrap_or_default().roster;
                read_table(text, roster, names).map_err(|faults| match answer(plan, case) {
                    Err(refusal) => AmountsError::Refused(refusal),
                    Ok(_) => AmountsError::Table(faults),
                })
            }
        }
    }
}

/// None where the last amount is cut short.
fn list(bytes: &[u8]) -> Option<Vec<u32>> {
    let amounts = bytes.chunks(AMOUNT).map(|amount| amount.try_into().ok().map(u32::from_le_bytes));
    amounts.collect()
}

/// What is refused of a list that fits no roster: what the answer is refused for, or else the list.
fn no_list(plan: &[u8], case: &[u8], given: Given) -> Refusal {
    let longer = [0; limits::PERSONS + 1];
    let refused = Buffers::new().pool(plan, case, &longer).err();
    refused.unwrap_or(Refusal::nowhere(Reason::AmountsDoNotFit)).of_amounts(given)
}
