//! Safe wrappers of what crates/probes gives to C of binding. A package of its own: two static libraries of proved crates have the same names
//! in them, so a program links one.

pub mod expected;

unsafe extern "C" {
    fn lukhveri_binding(
        plan: *const u8,
        plan_length: usize,
        case: *const u8,
        case_length: usize,
        fact: usize,
    ) -> u8;

    fn lukhveri_influence(
        plan: *const u8,
        plan_length: usize,
        case: *const u8,
        case_length: usize,
        number: usize,
    ) -> u64;

    fn lukhveri_variables(
        plan: *const u8,
        plan_length: usize,
        case: *const u8,
        case_length: usize,
    ) -> usize;

    fn lukhveri_variable(
        plan: *const u8,
        plan_length: usize,
        case: *const u8,
        case_length: usize,
        place: usize,
    ) -> u16;

    fn lukhveri_worlds(
        plan: *const u8,
        plan_length: usize,
        case: *const u8,
        case_length: usize,
        maximum: *mut u64,
    ) -> u64;

    fn lukhveri_bindable(
        plan: *const u8,
        plan_length: usize,
        case: *const u8,
        case_length: usize,
        record: *mut u64,
    ) -> u8;
}

/// The code of a fact's binding: 0 none, 1 and 2 known, 3 unknown, 4, 5 and 6 a conflict of false, of true, of both.
pub fn binding(plan: &[u8], case: &[u8], fact: usize) -> u8 {
    // Two slices and a number, of which the Rattle function keeps nothing.
    unsafe { lukhveri_binding(plan.as_ptr(), plan.len(), case.as_ptr(), case.len(), fact) }
}

/// The influence of a fact, or of a decision behind the facts.
pub fn influence(plan: &[u8], case: &[u8], number: usize) -> u64 {
    // As above.
    unsafe { lukhveri_influence(plan.as_ptr(), plan.len(), case.as_ptr(), case.len(), number) }
}

/// How many variables there are.
pub fn variables(plan: &[u8], case: &[u8]) -> usize {
    // As above.
    unsafe { lukhveri_variables(plan.as_ptr(), plan.len(), case.as_ptr(), case.len()) }
}

/// The variable at a place: in the low byte a fact's number or a decision's number and 64, in the next its candidates; 0 past the last.
pub fn variable(plan: &[u8], case: &[u8], place: usize) -> u16 {
    // As above.
    unsafe { lukhveri_variable(plan.as_ptr(), plan.len(), case.as_ptr(), case.len(), place) }
}

/// The count of worlds before constraints, and the maximum.
pub fn worlds(plan: &[u8], case: &[u8]) -> (u64, u64) {
    let mut maximum = 0;
    // Two slices and a reference to a number, of which the Rattle function keeps nothing.
    let count = unsafe {
        lukhveri_worlds(
            plan.as_ptr(),
            plan.len(),
            case.as_ptr(),
            case.len(),
            &mut maximum,
        )
    };
    (count, maximum)
}

/// Number and record of the first refusal up to 5, 10 and 11, but for 8, 9 and 12; zeros for none.
pub fn bindable(plan: &[u8], case: &[u8]) -> (u8, u64) {
    let mut record = 0;
    // As above.
    let number = unsafe {
        lukhveri_bindable(
            plan.as_ptr(),
            plan.len(),
            case.as_ptr(),
            case.len(),
            &mut record,
        )
    };
    (number, record)
}
