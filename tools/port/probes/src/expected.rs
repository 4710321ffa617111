//! What the model says, up to binding a case.

use model::expressions::Bound;
use model::records::{Case, Plan, Refusal};

/// What the model says of a plan and a case.
pub enum Expected {
    Unread(Refusal),
    /// Refusals 5 and 10: document 01 leaves free what such a case binds.
    Unbound(Refusal),
    Bound(Bound, u64),
}

impl Expected {
    pub fn of(plan: &[u8], case: &[u8]) -> Expected {
        let plan = match Plan::read(plan) {
            Ok(plan) => plan,
            Err(refusal) => return Expected::Unread(refusal),
        };
        let case = match Case::read(case, &plan) {
            Ok(case) => case,
            Err(refusal) => return Expected::Unread(refusal),
        };
        match case.check_repeats() {
            Ok(()) => {
                let most = u64::from(case.heading.most_worlds);
                Expected::Bound(Bound::of(&plan, &case), most)
            }
            Err(refusal) => Expected::Unbound(refusal),
        }
    }

    /// Number, record, count and maximum, as an answer has them.
    pub fn refusal(&self) -> (u8, u64, u64, u64) {
        match self {
            Expected::Unread(refusal) | Expected::Unbound(refusal) => {
                (refusal.number, refusal.record as u64, 0, 0)
            }
            Expected::Bound(bound, most) => match worlds(bound, *most) {
                (count, maximum) if count > *most => (11, 0, count, maximum),
                _ => (0, 0, 0, 0),
            },
        }
    }
}

/// The count of worlds and the maximum, both at the ceiling from 2^64 on.
pub fn worlds(bound: &Bound, most: u64) -> (u64, u64) {
    match bound.world_count() {
        Some(count) => (count, most),
        None => (u64::MAX, u64::MAX),
    }
}
