//! Pooling by the proved code: the C entry, and the arrays that it writes.

use inputs::random::Random;
use model::{Outcome, PoolOutcome, Unit};

/// Units that there can be.
pub const UNITS: usize = 64;

/// Entries on both sides of a lent array, which no call may touch.
const MARGIN: usize = 2;

/// Those of an answer, the count of units, the unplaced sum.
type Told = [u64; 9];

unsafe extern "C" {
    fn lukhveri_pool(
        plan: *const u8,
        plan_length: usize,
        case: *const u8,
        case_length: usize,
        amounts: *const u32,
        amounts_length: usize,
        lines: *mut u8,
        lines_length: usize,
        events: *mut u8,
        events_length: usize,
        blocks: *mut [u64; UNITS],
        pools: *mut [u64; UNITS],
        open: *mut [u8; UNITS],
        told: *mut Told,
    ) -> u8;
}

/// A lent array with its margins, full of dirt.
struct Lent<T> {
    entries: [T; UNITS + 2 * MARGIN],
    before: [T; UNITS + 2 * MARGIN],
}

impl<T: Copy + PartialEq + Default> Lent<T> {
    fn new(mut dirt: impl FnMut() -> T) -> Lent<T> {
        let before = std::array::from_fn(|_| dirt());
        let entries = before;
        Lent { entries, before }
    }

    fn middle(&mut self) -> &mut [T; UNITS] {
        let middle = &mut self.entries[MARGIN..MARGIN + UNITS];
        middle.try_into().expect("as many as there can be")
    }

    /// Whether these entries stand at the start, zeros past them, and in the margins what they held.
    fn holds(&self, entries: impl Iterator<Item = T>) -> bool {
        let mut expected = self.before;
        expected[MARGIN..MARGIN + UNITS].fill(T::default());
        let room = expected[MARGIN..MARGIN + UNITS].iter_mut();
        room.zip(entries).for_each(|(place, entry)| *place = entry);
        self.entries == expected
    }
}

/// The arrays of a call.
pub struct Arrays {
    blocks: Lent<u64>,
    cents: Lent<u64>,
    open: Lent<u8>,
}

impl Arrays {
    pub fn new(random: &mut Random) -> Arrays {
        Arrays {
            blocks: Lent::new(|| random.next()),
            cents: Lent::new(|| random.next()),
            open: Lent::new(|| random.byte(256)),
        }
    }

    /// Whether every entry is the one that these units have, or zero past them.
    pub fn hold(&self, units: &[Unit]) -> bool {
        units.len() <= UNITS
            && self.blocks.holds(units.iter().map(|unit| unit.block))
            && self.cents.holds(units.iter().map(|unit| unit.cents))
            && self
                .open
                .holds(units.iter().map(|unit| u8::from(unit.open)))
    }
}

/// What a call tells beside its arrays.
#[derive(Clone, Copy, Debug, PartialEq, Eq)]
pub struct Pooled {
    pub answer: Outcome,
    pub units: u64,
    pub unplaced: u64,
}

impl From<&PoolOutcome> for Pooled {
    fn from(outcome: &PoolOutcome) -> Pooled {
        Pooled {
            answer: outcome.answer,
            units: outcome.units.len() as u64,
            unplaced: outcome.unplaced,
        }
    }
}

/// Pool amounts with the proved code.
pub fn pool(
    plan: &[u8],
    case: &[u8],
    amounts: &[u32],
    lines: &mut [u8],
    events: &mut [u8],
    arrays: &mut Arrays,
) -> Pooled {
    let mut told: Told = [u64::MAX; 9];
    // Five slices, of which two are lent for writing, three arrays and nine numbers, of which the Rattle function keeps nothing.
    let number = unsafe {
        lukhveri_pool(
            plan.as_ptr(),
            plan.len(),
            case.as_ptr(),
            case.len(),
            amounts.as_ptr(),
            amounts.len(),
            lines.as_mut_ptr(),
            lines.len(),
            events.as_mut_ptr(),
            events.len(),
            arrays.blocks.middle(),
            arrays.cents.middle(),
            arrays.open.middle(),
            &mut told,
        )
    };
    let [answer @ .., units, unplaced] = told;
    Pooled {
        answer: crate::outcome(number, answer),
        units,
        unplaced,
    }
}
