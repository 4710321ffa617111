//! Pools the amounts of a roster by its units.

use crate::event::Event;
use crate::foreign::{self, Sums, Told};
use crate::line::Line;
use crate::operations::{Answer, Answered, Buffers, answered};
use crate::persons::Persons;
use crate::refusal::{Given, Refusal};

/// A unit and its pool. Whether it is a household, [`Answer::is_household`] tells of its persons; units that are none are listed all the same.
#[derive(Clone, Copy, Debug, PartialEq, Eq, Hash)]
pub struct Unit {
    pub persons: Persons,
    /// The sum over its persons who are decided and not excluded.
    pub cents: u64,
    /// The role of somebody in it is not decided. The amounts of those persons are not in the pool but unplaced, and the pool is not final.
    pub open: bool,
}

/// Pools amounts into lent buffers of any length and content, as [`answer_into`](crate::answer_into) answers. Nothing is allocated.
pub fn pool_into<'a>(
    plan: &[u8],
    case: &[u8],
    amounts: &[u32],
    lines: &'a mut [u8],
    events: &'a mut [u8],
) -> Result<Pooled<'a>, Refusal> {
    let mut sums = Sums::NONE;
    let told = foreign::pool(plan, case, amounts, lines, events, &mut sums);
    let answered = answered(&told, plan, case, lines, events);
    pooled(answered, sums, amounts)
}

fn pooled<'a>(
    answered: Result<Answered<'a>, Refusal>,
    sums: Sums,
    amounts: &[u32],
) -> Result<Pooled<'a>, Refusal> {
    let answered = answered.map_err(|refusal| refusal.of_amounts(Given::Amounts(amounts.len())))?;
    Ok(Pooled { answered, sums })
}

/// Pools beside an answer that stands in lent buffers.
#[derive(Clone, Copy, Debug)]
pub struct Pooled<'a> {
    answered: Answered<'a>,
    sums: Sums,
}

impl<'a> Pooled<'a> {
    /// The answer of the case.
    pub fn answered(&self) -> Answered<'a> {
        self.answered
    }

    /// One line for each person of the roster, rising, and so one for each amount.
    pub fn lines(&self) -> impl Iterator<Item = Line> + 'a {
        self.answered.lines()
    }

    /// Rising by their bytes, no repeats.
    pub fn events(&self) -> impl Iterator<Item = Event> + 'a {
        self.answered.events()
    }

    /// The units, in order of their lowest persons; those that are no households, too.
    pub fn units(&self) -> impl Iterator<Item = Unit> + '_ {
        let Sums { blocks, cents, open, count, .. } = &self.sums;
        let count = usize::try_from(*count).unwrap_or(usize::MAX);
        let units = blocks.iter().zip(cents).zip(open).take(count);
        units.map(|((block, cents), open)| Unit {
            persons: Persons::from_mask(*block),
            cents: *cents,
            open: *open != 0,
        })
    }

    /// The sum over all who are not pooled.
    pub fn unplaced(&self) -> u64 {
        self.sums.unplaced
    }

    /// A copy that stands by itself.
    pub fn to_pools(&self) -> Pools {
        let (answer, units) = (self.answered.to_answer(), self.units().collect());
        Pools { answer, units, unplaced: self.unplaced() }
    }
}

/// Pools that stand by themselves, beside the answer.
#[derive(Clone, Debug, PartialEq, Eq)]
pub struct Pools {
    pub answer: Answer,
    /// In order of their lowest persons; those that are no households, too.
    pub units: Vec<Unit>,
    /// The sum over all who are not pooled: everyone but those whose lines are decided and not excluded.
    pub unplaced: u64,
}

impl Pools {
    /// All pools together.
    pub fn pooled(&self) -> u64 {
        self.units.iter().fold(0, |sum, unit| sum.saturating_add(unit.cents))
    }

    /// All pools and what is unplaced: the sum of the list.
    pub fn sum(&self) -> u64 {
        self.pooled().saturating_add(self.unplaced)
    }
}

impl Buffers {
    /// Pools amounts, in cents, one for each person of the roster in rising order.
    pub fn pool(
        &mut self,
        plan: &[u8],
        case: &[u8],
        amounts: &[u32],
    ) -> Result<Pooled<'_>, Refusal> {
        let mut sums = Sums::NONE;
        let call = |lines: &mut [u8], events: &mut [u8]| -> Told {
            foreign::pool(plan, case, amounts, lines, events, &mut sums)
        };
        let told = self.ask(call);
        let answered = answered(&told, plan, case, &self.lines, &self.events);
        pooled(answered, sums, amounts)
    }
}

/// Answers a case and pools amounts by its units: cents, one amount for each person of the roster in rising order. A list of another length is
/// refused, 15; whatever an answer is refused for comes first. There is always room: no refusal 12 and no 13.
///
/// ```
/// use lukhveri::{CaseBuilder, Citation, Edge, Frame, Paper, Persons, PlanBuilder, Reason, Status, Unit};
///
/// # fn main() -> Result<(), Box<dyn std::error::Error>> {
/// // Persons 0 and 1 are counted together; whether 0 is excluded nobody knows yet. Person 2 is excluded.
/// let mut plan = PlanBuilder::new(1);
/// let paid = plan.boolean()?;
/// let (always, is_paid) = (plan.literal(true)?, plan.holds(paid)?);
/// plan.edge(Edge::base(0, 1, always, Citation(1)))?;
/// plan.status(Status::new(0, is_paid, Citation(2)))?;
/// plan.status(Status::new(2, always, Citation(2)))?;
/// let plan = plan.finish()?;
/// let frame = Frame { scope: 1, segment: 1 };
/// let mut case = CaseBuilder::new(&plan, frame, Persons::of(&[0, 1, 2])?)?;
/// case.roster_complete(Paper(0))?;
/// let case = case.finish()?;
///
/// let pools = lukhveri::pool(plan.bytes(), case.bytes(), &[1, 10, 100])?;
/// let together = Unit { persons: Persons::of(&[0, 1])?, cents: 10, open: true };
/// let excluded = Unit { persons: Persons::of(&[2])?, cents: 0, open: false };
/// assert_eq!(pools.units, [together, excluded]);
/// assert_eq!((pools.unplaced, pools.sum()), (101, 111));
/// assert!(pools.answer.is_household(together.persons) && !pools.answer.is_household(excluded.persons));
///
/// let refusal = lukhveri::pool(plan.bytes(), case.bytes(), &[1, 10]).expect_err("two amounts");
/// assert_eq!(refusal.reason, Reason::AmountsDoNotFit);
/// # Ok(())
/// # }
/// ```
pub fn pool(plan: &[u8], case: &[u8], amounts: &[u32]) -> Result<Pools, Refusal> {
    Buffers::new().pool(plan, case, amounts).map(|pooled| pooled.to_pools())
}
