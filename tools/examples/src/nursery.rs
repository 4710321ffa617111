//! A nursery: one family's answer is open, another family is decided all the same.

use lukhveri::{
    BuildError, Case, CaseBuilder, Citation, Edge, Family, Frame, Paper, Persons, Plan, PlanBuilder,
};

use crate::example::{Example, Words};

const CHILD: Citation = Citation(1);
const PARENTS: Citation = Citation(2);
const FLAT: Citation = Citation(3);
const LIST: Paper = Paper(1);
const REGISTER: Paper = Paper(2);
const FORM: Paper = Paper(3);
const LETTER: Paper = Paper(4);
const SHARES_A_FLAT: u8 = 1;

pub fn plan() -> Result<Plan, BuildError> {
    let mut plan = PlanBuilder::new(1);
    let lives_there = plan.boolean()?;
    let share = plan.relation(SHARES_A_FLAT, &[3, 5])?;
    let always = plan.literal(true)?;
    let lives_there = plan.holds(lives_there)?;
    let share = plan.holds(share)?;
    plan.edge(Edge::base(0, 2, always, CHILD))?;
    plan.edge(Edge::base(0, 1, lives_there, PARENTS))?;
    plan.edge(Edge::base(1, 2, lives_there, PARENTS))?;
    plan.edge(Edge::base(3, 4, always, CHILD))?;
    plan.edge(Edge::combination(3, 5, share, FLAT))?;
    plan.finish()
}

/// What Levan says of his address: unknown, or an answer by letter.
pub fn case(plan: &Plan, levan: Option<bool>) -> Result<Case, BuildError> {
    let mut case =
        CaseBuilder::new(plan, Frame { scope: 1, segment: 1 }, Persons::of(&[0, 1, 2, 3, 4, 5])?)?;
    case.roster_complete(LIST)?;
    case.most_worlds(64)?;
    case.family(Family::new(SHARES_A_FLAT).complete(REGISTER))?;
    if let Some(address) = plan.boolean(0) {
        match levan {
            None => case.unknown(address, FORM)?,
            Some(value) => case.observe(address, value, LETTER)?,
        }
    }
    case.finish()
}

pub fn example() -> Result<Example, BuildError> {
    let plan = plan()?;
    let case = case(&plan, None)?;
    Ok(Example {
        folder: "nursery",
        title: "An open answer in one family, and another that need not wait",
        story: "Salome's parents are Nino and Levan. Whether Levan lives with them is open: he wrote on the form that he does not know yet. \
            Dato's mother is Maka. The register of shared flats is complete, and it does not say that Maka shares one with her sister Tamar.",
        outcome: "Nino, Levan and Salome have to wait for fact 0. Maka and Dato are a unit today, Tamar is one of her own: \
            silence in a complete register means no.",
        plan,
        case,
        amounts: &[],
        sheets: &[],
        words: Words {
            persons: &[
                (0, "Nino"),
                (1, "Levan"),
                (2, "Salome"),
                (3, "Maka"),
                (4, "Dato"),
                (5, "Tamar"),
            ],
            facts: &[(0, "Levan lives with Nino and Salome"), (1, "Maka and Tamar share a flat")],
            citations: &[
                (
                    CHILD.0,
                    "§1 child and parent",
                    "A child is counted with the parent who has custody.",
                ),
                (
                    PARENTS.0,
                    "§2 parents at one address",
                    "A parent who lives at the child's address is counted with child and other parent.",
                ),
                (
                    FLAT.0,
                    "§3 shared flats",
                    "Adults who share a flat and its costs are counted together.",
                ),
            ],
            evidence: &[
                (LIST.0, "the nursery's list, signed as complete"),
                (REGISTER.0, "the register of shared flats, closed in September"),
                (FORM.0, "Levan's form: not known yet"),
            ],
            rules: &[],
            actors: &[],
        },
    })
}
