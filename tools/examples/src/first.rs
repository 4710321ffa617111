//! Two spouses and a brother: one edge that always holds.

use lukhveri::{BuildError, CaseBuilder, Citation, Edge, Frame, Paper, Persons, PlanBuilder};

use crate::example::{Example, Words};

const SPOUSES: Citation = Citation(1);
const LIST: Paper = Paper(0);

pub fn example() -> Result<Example, BuildError> {
    let mut plan = PlanBuilder::new(1);
    let always = plan.literal(true)?;
    plan.edge(Edge::base(0, 1, always, SPOUSES))?;
    let plan = plan.finish()?;

    let mut case =
        CaseBuilder::new(&plan, Frame { scope: 1, segment: 1 }, Persons::of(&[0, 1, 2])?)?;
    case.roster_complete(LIST)?;
    case.most_worlds(1)?;
    let case = case.finish()?;

    Ok(Example {
        folder: "01",
        title: "Two spouses and a brother",
        story: "Ana and Beka are married. Gio, Beka's brother, is on the list, too. The rule book has one paragraph: spouses are counted together.",
        outcome: "Ana and Beka are a unit, Gio is one of his own. Nothing is open.",
        plan,
        case,
        amounts: &[],
        sheets: &[],
        words: Words {
            persons: &[(0, "Ana"), (1, "Beka"), (2, "Gio")],
            facts: &[],
            citations: &[(SPOUSES.0, "§1 spouses", "Spouses are counted together.")],
            evidence: &[(LIST.0, "the office's list, signed as complete")],
            rules: &[],
            actors: &[],
        },
    })
}
