//! The functions of the static library, over slices.

use crate::limits::UNITS;

/// Refusal, record, count, maximum, lines, events, worlds.
pub(crate) type Told = [u64; 7];

/// Refusal, row of the table, length of the plan.
pub(crate) type Made = [u64; 3];

/// What a pooling tells beside its lines and events: units, one place for each, zero past their count, and what is unplaced.
#[derive(Clone, Copy, Debug)]
pub(crate) struct Sums {
    pub(crate) blocks: [u64; UNITS],
    pub(crate) cents: [u64; UNITS],
    pub(crate) open: [u8; UNITS],
    pub(crate) count: u64,
    pub(crate) unplaced: u64,
}

impl Sums {
    pub(crate) const NONE: Sums =
        Sums { blocks: [0; UNITS], cents: [0; UNITS], open: [0; UNITS], count: 0, unplaced: 0 };
}

unsafe extern "C" {
    fn lukhveri_check(plan: *const u8, plan_length: usize, told: *mut Told) -> u8;

    fn lukhveri_answer(
        plan: *const u8,
        plan_length: usize,
        case: *const u8,
        case_length: usize,
        lines: *mut u8,
        lines_length: usize,
        events: *mut u8,
        events_length: usize,
        told: *mut Told,
    ) -> u8;

    fn lukhveri_show(
        plan: *const u8,
        plan_length: usize,
        case: *const u8,
        case_length: usize,
        world: u64,
        lines: *mut u8,
        lines_length: usize,
        events: *mut u8,
        events_length: usize,
        told: *mut Told,
    ) -> u8;

    fn lukhveri_pool(
        plan: *const u8,
        plan_length: usize,
        case: *const u8,
        case_length: usize,
        amounts: *const u32,
        amount_count: usize,
        lines: *mut u8,
        lines_length: usize,
        events: *mut u8,
        events_length: usize,
        blocks: *mut [u64; UNITS],
        pools: *mut [u64; UNITS],
        open: *mut [u8; UNITS],
        told: *mut [u64; 9],
    ) -> u8;

    fn lukhveri_list(
        plan: *const u8,
        plan_length: usize,
        case: *const u8,
        case_length: usize,
        lines: *mut u8,
        lines_length: usize,
        events: *mut u8,
        events_length: usize,
        text: *mut u8,
        text_length: usize,
    ) -> usize;

    fn lukhveri_circle(
        plan: *const u8,
        plan_length: usize,
        case: *const u8,
        case_length: usize,
        person: u8,
    ) -> u64;

    fn lukhveri_import(
        table: *const u8,
        table_length: usize,
        plan: *mut u8,
        plan_length: usize,
        made: *mut Made,
    ) -> u8;
}

pub(crate) fn check(plan: &[u8]) -> Told {
    let mut told = [0; 7];
    // SAFETY: a slice and seven numbers, which the function reads and writes and does not keep.
    unsafe { lukhveri_check(plan.as_ptr(), plan.len(), &mut told) };
    told
}

pub(crate) fn answer(plan: &[u8], case: &[u8], lines: &mut [u8], events: &mut [u8]) -> Told {
    let mut told = [0; 7];
    // SAFETY: four slices and seven numbers, none of which it keeps; those that it writes are borrowed mutably, so nothing overlaps them.
    unsafe {
        lukhveri_answer(
            plan.as_ptr(),
            plan.len(),
            case.as_ptr(),
            case.len(),
            lines.as_mut_ptr(),
            lines.len(),
            events.as_mut_ptr(),
            events.len(),
            &mut told,
        )
    };
    told
}

pub(crate) fn show(
    plan: &[u8],
    case: &[u8],
    world: u64,
    lines: &mut [u8],
    events: &mut [u8],
) -> Told {
    let mut told = [0; 7];
    // SAFETY: as for an answer.
    unsafe {
        lukhveri_show(
            plan.as_ptr(),
            plan.len(),
            case.as_ptr(),
            case.len(),
            world,
            lines.as_mut_ptr(),
            lines.len(),
            events.as_mut_ptr(),
            events.len(),
            &mut told,
        )
    };
    told
}

/// Every number of the sums is written.
pub(crate) fn pool(
    plan: &[u8],
    case: &[u8],
    amounts: &[u32],
    lines: &mut [u8],
    events: &mut [u8],
    sums: &mut Sums,
) -> Told {
    let mut told = [0; 9];
    // SAFETY: five slices, three arrays of 64 and nine numbers, none of which it keeps; those that it writes are borrowed mutably, so nothing
    // overlaps them.
    unsafe {
        lukhveri_pool(
            plan.as_ptr(),
            plan.len(),
            case.as_ptr(),
            case.len(),
            amounts.as_ptr(),
            amounts.len(),
            lines.as_mut_ptr(),
            lines.len(),
            events.as_mut_ptr(),
            events.len(),
            &mut sums.blocks,
            &mut sums.cents,
            &mut sums.open,
            &mut told,
        )
    };
    let [answered @ .., count, unplaced] = told;
    (sums.count, sums.unplaced) = (count, unplaced);
    answered
}

/// How many bytes of the text stand at the start of its buffer.
pub(crate) fn list(
    plan: &[u8],
    case: &[u8],
    lines: &mut [u8],
    events: &mut [u8],
    text: &mut [u8],
) -> usize {
    // SAFETY: five slices, none of which it keeps; those that it writes are borrowed mutably, so nothing overlaps them.
    unsafe {
        lukhveri_list(
            plan.as_ptr(),
            plan.len(),
            case.as_ptr(),
            case.len(),
            lines.as_mut_ptr(),
            lines.len(),
            events.as_mut_ptr(),
            events.len(),
            text.as_mut_ptr(),
            text.len(),
        )
    }
}

pub(crate) fn circle(plan: &[u8], case: &[u8], person: u8) -> u64 {
    // SAFETY: two slices, which it only reads and does not keep.
    unsafe { lukhveri_circle(plan.as_ptr(), plan.len(), case.as_ptr(), case.len(), person) }
}

pub(crate) fn import(table: &[u8], plan: &mut [u8]) -> Made {
    let mut made = [0; 3];
    // SAFETY: two slices and three numbers, none of which it keeps; those that it writes are borrowed mutably, so nothing overlaps them.
    unsafe {
        lukhveri_import(table.as_ptr(), table.len(), plan.as_mut_ptr(), plan.len(), &mut made)
    };
    made
}
