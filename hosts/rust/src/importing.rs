//! Makes a plan out of a table of rules.

use crate::foreign;
use crate::plan::Plan;
use crate::refusal::Refusal;

/// Bytes that hold the plan of every table.
pub const IMPORTED_LENGTH: usize = 550;

/// Makes the plan of a table in a lent buffer of any length and content, and gives its bytes; those past them are zero. It is refused if a row
/// breaks its form (16) or if the plan does not fit (17), and then the buffer is all zero. Nothing is allocated.
pub fn import_into<'a>(table: &[u8], plan: &'a mut [u8]) -> Result<&'a [u8], Refusal> {
    let made = foreign::import(table, plan);
    let [.., length] = made;
    let length = usize::try_from(length).unwrap_or(usize::MAX);
    match Refusal::made(&made) {
        Some(refusal) => Err(refusal),
        None => Ok(plan.get(..length).unwrap_or(plan)),
    }
}

impl Plan {
    /// The plan of a table of rules, as a spreadsheet exports it by RFC 4180: fields parted by commas and quoted where they need it, rows ended
    /// by CR LF, which the last may lack. The first row is `kind,left,right,citation`. Below it each row is a rule that always holds: `base` and
    /// `combination` join two persons; `status` excludes the person in left from the relief, whose place in the unit stays, and has an empty right
    /// field. Persons and citations are 0 to 63, in digits alone and without leading zeros. Edges come before statuses, both in the order of their
    /// rows. The heading has roster relation 1 and no base-chain citation: three or more persons joined by `base` need a row for each two of them,
    /// and a mere chain is left to discretion ([`notes`](crate::draft::notes) tells it).
    ///
    /// What is refused names the first row that breaks this form; [`Refusal::row_fault`] says what is wrong with it. There is always room: no
    /// refusal 17.
    ///
    /// ```
    /// use lukhveri::draft::Column;
    /// use lukhveri::{Plan, Reason};
    ///
    /// # fn main() -> Result<(), Box<dyn std::error::Error>> {
    /// let plan = Plan::from_table(b"kind,left,right,citation\r\nstatus,2,,7\r\nbase,0,1,5\r\n")?;
    /// assert_eq!((plan.records().edges.len(), plan.records().statuses.len()), (1, 1));
    /// assert_eq!(plan.bytes(), [1, 1, 1, 3, 1, 1, 4, 15, 0, 1, 0, 5, 8, 7, 2, 0, 7]);
    ///
    /// let table = b"kind,left,right,citation\r\nbase,0,1,5\r\nbase,0,64,5\r\n";
    /// let refusal = Plan::from_table(table).expect_err("there is no person 64");
    /// assert_eq!(refusal.reason, Reason::BrokenRow { row: 2 });
    /// let fault = refusal.row_fault(table).ok_or("a row is named")?;
    /// assert_eq!((fault.line, fault.field), (Some(3), Some(Column::Right)));
    /// assert_eq!(
    ///     fault.to_string(),
    ///     "row 2 of the table (line 3 of the file), field right: '64' is outside 0 to 63"
    /// );
    /// assert_eq!(fault.remedy(), "write a number from 0 to 63");
    /// # Ok(())
    /// # }
    /// ```
    pub fn from_table(table: &[u8]) -> Result<Plan, Refusal> {
        let mut plan = [0; IMPORTED_LENGTH];
        Plan::read(import_into(table, &mut plan)?)
    }
}
