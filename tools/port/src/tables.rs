//! Importing by the proved code: the C entry, and the numbers that it tells.

use model::Made;

/// Bytes of the largest plan that a table gives.
pub const MOST: usize = 550;

/// What no call tells, and what stands beside the numbers, which no call may touch.
const DIRT: u64 = 0xa5a5_5a5a_a5a5_5a5a;

unsafe extern "C" {
    fn lukhveri_import(
        table: *const u8,
        table_length: usize,
        plan: *mut u8,
        plan_length: usize,
        made: *mut [u64; 3],
    ) -> u8;
}

/// The number that a call returned, refusal, row and length as it told them, and their neighbours.
#[derive(Clone, Copy, Debug, PartialEq, Eq)]
pub struct Imported {
    pub number: u8,
    pub made: [u64; 3],
    beside: [u64; 2],
}

impl From<Made> for Imported {
    fn from(made: Made) -> Imported {
        Imported {
            number: made.refusal,
            made: [u64::from(made.refusal), made.row, made.length],
            beside: [DIRT; 2],
        }
    }
}

/// Import a table with the proved code.
pub fn import(table: &[u8], plan: &mut [u8]) -> Imported {
    let mut told = [[DIRT; 3]; 3];
    // Two slices, of which one is lent for writing, and three numbers, of which the Rattle function keeps nothing.
    let number = unsafe {
        lukhveri_import(
            table.as_ptr(),
            table.len(),
            plan.as_mut_ptr(),
            plan.len(),
            &mut told[1],
        )
    };
    Imported {
        number,
        made: told[1],
        beside: [told[0][2], told[2][0]],
    }
}
