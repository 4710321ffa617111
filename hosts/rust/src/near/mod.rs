//! All that may be said to one family: plan and case as far as they belong to one circle.
//!
//! In the plan of a [`Near`] the facts that do not touch the circle are false and the decisions of others are settled; its case says nothing
//! of them. Rules, heading and constraints are kept. Whatever is made of a `Near` alone cannot show what a case says of strangers. Its lines are
//! those of the whole case, as demand 3 leads one to expect; they are compared, and there is no `Near` where they differ.

mod carried;
mod choices;
mod kept;
mod open;
mod outcome;
mod said;
mod spread;
mod touch;
mod values;
mod worlds;

pub use open::Variable;
pub use outcome::{Outcome, Settling};
pub use said::{Bound, Said};
pub use spread::{Link, Mark, Seed};
pub use touch::{Touching, Why, touching};
pub use values::values;
pub use worlds::{Acts, View, World, Worlds};

use std::error::Error;
use std::fmt;
use std::sync::OnceLock;

use crate::case_records::CaseRecords;
use crate::line::{Line, LineKind};
use crate::operations::{Answer, Buffers, answer};
use crate::persons::Persons;
use crate::plan::Plan;
use crate::refusal::Refusal;
use kept::Kept;
use open::Open;
use outcome::IfAnswered;

/// Why there is nothing to be told of a person.
#[derive(Clone, Debug, PartialEq, Eq)]
pub enum NearError {
    /// There is no answer to the case.
    Refused(Refusal),
    /// The person is not on the roster.
    OffRoster { person: u8 },
    /// What was found for the circle is not what the proved code answers. It never comes; nothing is said rather than something untrue.
    Differs { person: u8 },
}

impl fmt::Display for NearError {
    fn fmt(&self, to: &mut fmt::Formatter) -> fmt::Result {
        match self {
            NearError::Refused(refusal) => write!(to, "{refusal}"),
            NearError::OffRoster { person } => write!(to, "person {person} is not on the roster"),
            NearError::Differs { person } => {
                write!(to, "the circle of person {person} does not bear out the answer")
            }
        }
    }
}

impl Error for NearError {}

impl From<Refusal> for NearError {
    fn from(refusal: Refusal) -> NearError {
        NearError::Refused(refusal)
    }
}

/// A plan and a case as far as they belong to one circle, with the answer and every world of these.
#[derive(Clone, Debug)]
pub struct Near {
    circle: Persons,
    plan: Plan,
    case: CaseRecords,
    /// The bound facts that touch the circle, rising, each with what the case says of it.
    facts: Vec<(Touching, Said)>,
    open: Open,
    lines: Vec<Line>,
    worlds: Worlds,
    /// Asked for when it is first needed.
    if_answered: OnceLock<IfAnswered>,
    /// Found when it is first needed.
    carried: OnceLock<Vec<(Variable, Persons)>>,
}

impl Near {
    /// What belongs to the circle of a roster person.
    pub fn of(plan: &[u8], case: &[u8], person: u8) -> Result<Near, NearError> {
        let whole = answer(plan, case)?;
        let read = Plan::read(plan)?;
        let records = CaseRecords::read(case).unwrap_or_default();
        if !records.roster.holds(person) {
            return Err(NearError::OffRoster { person });
        }
        Near::within(&read, &records, person)?.agreeing(&whole)
    }

    /// One for each circle that has somebody of the roster, by the lowest of them.
    pub fn all(plan: &[u8], case: &[u8]) -> Result<Vec<Near>, NearError> {
        let whole = answer(plan, case)?;
        let read = Plan::read(plan)?;
        let records = CaseRecords::read(case).unwrap_or_default();
        let (mut all, mut left) = (Vec::new(), records.roster);
        while let Some(person) = left.iter().next() {
            let near = Near::within(&read, &records, person)?.agreeing(&whole)?;
            left = left.without(near.circle);
            all.push(near);
        }
        Ok(all)
    }

    fn within(plan: &Plan, case: &CaseRecords, person: u8) -> Result<Near, NearError> {
        let differs = NearError::Differs { person };
        let kept = Kept::of(plan, case, person).ok_or(differs.clone())?;
        let found = answer(kept.plan.bytes(), &kept.case.bytes())?;
        let open = Open::of(&kept);
        let worlds = Worlds::of(&kept, &open, &found).ok_or(differs)?;
        let own = found.lines.iter().filter(|line| kept.circle.holds(line.person));
        let lines = own.map(|line| open.whole_line(line)).collect();
        let Kept { circle, plan, case, facts, .. } = kept;
        let (if_answered, carried) = (OnceLock::new(), OnceLock::new());
        Ok(Near { circle, plan, case, facts, open, lines, worlds, if_answered, carried })
    }

    /// Itself, if its lines are those of the whole case.
    fn agreeing(self, whole: &Answer) -> Result<Near, NearError> {
        let differs = |line: &&Line| whole.line(line.person) != Some(*line);
        match self.lines.iter().find(differs) {
            Some(line) => Err(NearError::Differs { person: line.person }),
            None => Ok(self),
        }
    }

    /// Everyone who can matter to anyone in it, on the roster or off it.
    pub fn circle(&self) -> Persons {
        self.circle
    }

    /// The lines of the circle's roster persons, rising.
    pub fn lines(&self) -> &[Line] {
        &self.lines
    }

    /// The line of a person of the circle.
    pub fn line(&self, person: u8) -> Option<&Line> {
        self.lines.iter().find(|line| line.person == person)
    }

    /// The plan with strangers' facts false and strangers' decisions settled. Rules keep their numbers.
    pub fn plan(&self) -> &Plan {
        &self.plan
    }

    /// The heading, the constraints, and what is said of facts that touch the circle.
    pub fn case(&self) -> &CaseRecords {
        &self.case
    }

    /// Each bound fact that touches the circle.
    pub fn touching(&self) -> impl Iterator<Item = &Touching> {
        self.facts.iter().map(|(touching, _)| touching)
    }

    /// What the case says of a fact; none for one that does not touch the circle.
    pub fn said(&self, fact: u8) -> Option<&Said> {
        self.facts.iter().find(|(touching, _)| touching.fact == fact).map(|(_, said)| said)
    }

    /// What is open in the circle, in document 01's order of variables.
    pub fn variables(&self) -> &[Variable] {
        self.open.variables()
    }

    /// All worlds of the circle.
    pub fn worlds(&self) -> &Worlds {
        &self.worlds
    }

    /// Cut and edge of an unresolved decision of the circle, by its place among those of the whole plan.
    pub fn decision(&self, place: u8) -> Option<(u8, u8)> {
        let at = self.open.decision_at(place)?;
        let (cut, edge) = *self.plan.decisions().get(at)?;
        Some((cut.number, edge.number))
    }

    /// The lines of the circle under each answer that one of its variables can have.
    fn if_answered(&self) -> &IfAnswered {
        self.if_answered.get_or_init(|| {
            let values = self.open.variables().iter().zip(self.open.candidates());
            let all = values
                .flat_map(|(variable, values)| values.iter().map(|value| (*variable, *value)));
            all.map(|(variable, value)| (variable, value, self.lines_if(variable, value))).collect()
        })
    }

    /// None where no world would be admissible.
    fn lines_if(&self, variable: Variable, value: bool) -> Option<Vec<Line>> {
        let mut records = self.plan.records().clone();
        self.open.settle(&self.plan, &mut records, variable, value);
        let plan = Plan::of(self.plan.handles().clone(), records);
        let mut buffers = Buffers::new();
        let found = buffers.answer(plan.bytes(), &self.case.bytes()).ok()?;
        let own = found.lines().filter(|line| self.circle.holds(line.person));
        let lines: Vec<Line> = own.collect();
        lines.iter().all(|line| line.kind != LineKind::Inconsistent).then_some(lines)
    }
}
