//! Safe wrappers of the operations that crates/exports gives to C.

pub mod alike;
pub mod clock;
pub mod drafted;
pub mod import_times;
pub mod lister;
pub mod pools;
pub mod promised;
pub mod settings;
pub mod tables;

use judge::sides::Side;
use model::Outcome;

/// Refusal, record, count, maximum, lines, events, worlds.
type Told = [u64; 7];

// The first three answer the refusal's number, 0 for none, and tell the rest behind the last reference.
unsafe extern "C" {
    fn lukhveri_check(plan: *const u8, plan_length: usize, told: *mut Told) -> u8;

    fn lukhveri_answer(
        plan: *const u8,
        plan_length: usize,
        case: *const u8,
        case_length: usize,
        lines: *mut u8,
        lines_length: usize,
        events: *mut u8,
        events_length: usize,
        told: *mut Told,
    ) -> u8;

    fn lukhveri_show(
        plan: *const u8,
        plan_length: usize,
        case: *const u8,
        case_length: usize,
        world: u64,
        lines: *mut u8,
        lines_length: usize,
        events: *mut u8,
        events_length: usize,
        told: *mut Told,
    ) -> u8;

    fn lukhveri_list(
        plan: *const u8,
        plan_length: usize,
        case: *const u8,
        case_length: usize,
        lines: *mut u8,
        lines_length: usize,
        events: *mut u8,
        events_length: usize,
        text: *mut u8,
        text_length: usize,
    ) -> usize;

    fn lukhveri_circle(
        plan: *const u8,
        plan_length: usize,
        case: *const u8,
        case_length: usize,
        person: u8,
    ) -> u64;
}

/// What a call tells, over dirt.
fn told(call: impl FnOnce(&mut Told) -> u8) -> Outcome {
    let mut told = [u64::MAX; 7];
    let number = call(&mut told);
    outcome(number, told)
}

/// The numbers that a call told, beside the one that it returned.
fn outcome(number: u8, told: Told) -> Outcome {
    let [refusal, record, count, maximum, lines, events, worlds] = told;
    assert_eq!(u64::from(number), refusal, "the result is the refusal told");
    Outcome {
        refusal: number,
        record,
        count,
        maximum,
        lines,
        events,
        worlds,
    }
}

/// Check a plan with the proved code.
pub fn check(plan: &[u8]) -> Outcome {
    // The Rattle function takes a slice and a reference to seven numbers, and keeps neither.
    told(|told| unsafe { lukhveri_check(plan.as_ptr(), plan.len(), told) })
}

/// Answer a case with the proved code.
pub fn answer(plan: &[u8], case: &[u8], lines: &mut [u8], events: &mut [u8]) -> Outcome {
    // Four slices, of which two are lent for writing, and the seven numbers, of which the Rattle function keeps nothing.
    told(|told| unsafe {
        lukhveri_answer(
            plan.as_ptr(),
            plan.len(),
            case.as_ptr(),
            case.len(),
            lines.as_mut_ptr(),
            lines.len(),
            events.as_mut_ptr(),
            events.len(),
            told,
        )
    })
}

/// Show a world with the proved code.
pub fn show(plan: &[u8], case: &[u8], world: u64, lines: &mut [u8], events: &mut [u8]) -> Outcome {
    // As above.
    told(|told| unsafe {
        lukhveri_show(
            plan.as_ptr(),
            plan.len(),
            case.as_ptr(),
            case.len(),
            world,
            lines.as_mut_ptr(),
            lines.len(),
            events.as_mut_ptr(),
            events.len(),
            told,
        )
    })
}

/// List a case with the proved code: how many bytes of the text stand at the start of its buffer.
pub fn list(
    plan: &[u8],
    case: &[u8],
    lines: &mut [u8],
    events: &mut [u8],
    text: &mut [u8],
) -> usize {
    // Five slices, of which three are lent for writing, and of which the Rattle function keeps nothing.
    unsafe {
        lukhveri_list(
            plan.as_ptr(),
            plan.len(),
            case.as_ptr(),
            case.len(),
            lines.as_mut_ptr(),
            lines.len(),
            events.as_mut_ptr(),
            events.len(),
            text.as_mut_ptr(),
            text.len(),
        )
    }
}

/// The circle of a person with the proved code, 0 for none.
pub fn circle(plan: &[u8], case: &[u8], person: u8) -> u64 {
    // Two slices, which are only read, and of which the Rattle function keeps nothing.
    unsafe { lukhveri_circle(plan.as_ptr(), plan.len(), case.as_ptr(), case.len(), person) }
}

/// The proved code, as one of those that judge compares.
pub struct Port;

impl Side for Port {
    fn check(&self, plan: &[u8]) -> Outcome {
        check(plan)
    }

    fn answer(&self, plan: &[u8], case: &[u8], lines: &mut [u8], events: &mut [u8]) -> Outcome {
        answer(plan, case, lines, events)
    }

    fn show(
        &self,
        plan: &[u8],
        case: &[u8],
        world: u64,
        lines: &mut [u8],
        events: &mut [u8],
    ) -> Outcome {
        show(plan, case, world, lines, events)
    }
}
