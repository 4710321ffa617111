//! Income pooled by unit: Ticket 1 of document 02, from its words.

use std::collections::BTreeMap;

use crate::fields::{DECIDED, Fields, ROLE_OPEN};
use crate::report::{Outcome, answer};
use crate::world::EXCLUDED;

const WRONG_LENGTH: u8 = 15;

/// A block with its pool; open if somebody of kind 2 is in it.
#[derive(Clone, Copy, Debug, Default, PartialEq, Eq)]
pub struct Unit {
    pub block: u64,
    pub cents: u64,
    pub open: bool,
}

/// Everything that pooling answers beside the bytes of its buffers.
#[derive(Clone, Debug, Default, PartialEq, Eq)]
pub struct PoolOutcome {
    pub answer: Outcome,
    /// In order of their lowest persons.
    pub units: Vec<Unit>,
    /// The amounts of everyone who is not pooled.
    pub unplaced: u64,
}

impl From<Outcome> for PoolOutcome {
    fn from(answer: Outcome) -> PoolOutcome {
        PoolOutcome { answer, ..PoolOutcome::default() }
    }
}

/// Answers the case, then pools the amounts, which stand as the roster's
/// persons rise. A list of another length is turned away after all that the
/// answer refuses.
pub fn pool(
    plan: &[u8],
    case: &[u8],
    amounts: &[u32],
    lines: &mut [u8],
    events: &mut [u8],
) -> PoolOutcome {
    let answer = answer(plan, case, lines, events);
    if answer.refusal != 0 {
        return answer.into();
    }
    if amounts.len() as u64 != answer.lines {
        lines.fill(0);
        events.fill(0);
        return Outcome { refusal: WRONG_LENGTH, ..Outcome::default() }.into();
    }
    let mut sums = Sums::default();
    for (line, &cents) in Fields::each(lines).zip(amounts) {
        sums.take(line, u64::from(cents));
    }
    PoolOutcome { answer, unplaced: sums.unplaced, units: sums.units() }
}

/// The lines taken so far: a sum for each block, and the rest.
#[derive(Default)]
struct Sums {
    by_block: BTreeMap<u64, Unit>,
    unplaced: u64,
}

impl Sums {
    fn take(&mut self, line: Fields, cents: u64) {
        let pooled = line.kind == DECIDED && line.role != EXCLUDED;
        if !pooled {
            self.unplaced += cents;
        }
        if line.block != 0 {
            let unit = self.by_block.entry(line.block).or_default();
            unit.block = line.block;
            unit.cents += if pooled { cents } else { 0 };
            unit.open |= line.kind == ROLE_OPEN;
        }
    }

    fn units(self) -> Vec<Unit> {
        let mut units: Vec<Unit> = self.by_block.into_values().collect();
        units.sort_by_key(|unit| unit.block.trailing_zeros());
        units
    }
}
