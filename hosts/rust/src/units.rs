//! Units: the different blocks of an answer's lines, and which of them are households.

use crate::line::Line;
use crate::operations::{Answer, Answered};
use crate::persons::Persons;

impl Answer {
    /// The different blocks, in order of their lowest persons; those that are no households, too.
    pub fn units(&self) -> Vec<Persons> {
        let mut units: Vec<Persons> = Vec::new();
        for block in self.lines.iter().map(|line| line.block) {
            if !block.is_empty() && !units.contains(&block) {
                units.push(block);
            }
        }
        units
    }

    /// The units that are households, in the same order: all but those in which everybody is excluded. Somebody who is barred makes a household,
    /// and so does somebody whose role is open. The last row of the [lister](crate::list) counts households alone; the other units are listed by
    /// [`units`](Answer::units) still, and by [`pool`](crate::pool), with 0 cents.
    ///
    /// ```
    /// use lukhveri::{CaseBuilder, Citation, Edge, Frame, Paper, Persons, PlanBuilder, Status};
    ///
    /// # fn main() -> Result<(), Box<dyn std::error::Error>> {
    /// // Persons 0 and 1 are counted together. Persons 1 and 2 are excluded.
    /// let mut plan = PlanBuilder::new(1);
    /// let always = plan.literal(true)?;
    /// plan.edge(Edge::base(0, 1, always, Citation(1)))?;
    /// plan.status(Status::new(1, always, Citation(2)))?;
    /// plan.status(Status::new(2, always, Citation(2)))?;
    /// let plan = plan.finish()?;
    /// let frame = Frame { scope: 1, segment: 1 };
    /// let mut case = CaseBuilder::new(&plan, frame, Persons::of(&[0, 1, 2])?)?;
    /// case.roster_complete(Paper(0))?;
    /// let answer = lukhveri::answer(plan.bytes(), case.finish()?.bytes())?;
    ///
    /// // Person 0 makes the first unit a household; in the second everybody is excluded.
    /// let (pair, alone) = (Persons::of(&[0, 1])?, Persons::of(&[2])?);
    /// assert_eq!(answer.units(), [pair, alone]);
    /// assert_eq!(answer.households(), [pair]);
    /// assert!(!answer.is_household(alone));
    /// # Ok(())
    /// # }
    /// ```
    pub fn households(&self) -> Vec<Persons> {
        self.units().into_iter().filter(|unit| self.is_household(*unit)).collect()
    }

    /// Whether a unit is a household: whether somebody in it [makes it one](Line::makes_household). Persons who are no unit are none.
    pub fn is_household(&self, unit: Persons) -> bool {
        self.lines.iter().any(|line| line.block == unit && line.makes_household())
    }
}

/// Every person of a block has a line with it, and different blocks have nobody in common. So one look at each line is enough.
impl<'a> Answered<'a> {
    /// The different blocks, in order of their lowest persons; those that are no households, too.
    pub fn units(&self) -> impl Iterator<Item = Persons> + 'a {
        let lowest = |line: &Line| line.block.iter().next() == Some(line.person);
        self.lines().filter(lowest).map(|line| line.block)
    }

    /// The units that are households, in the same order: all but those in which everybody is excluded, as [`Answer::households`] says.
    pub fn households(&self) -> impl Iterator<Item = Persons> + 'a {
        let making = self.lines().filter(Line::makes_household);
        let made = making.fold(Persons::NOBODY, |all, line| all.union(line.block));
        self.units().filter(move |unit| unit.meets(made))
    }
}
