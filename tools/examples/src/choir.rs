//! A choir that bills by unit: amounts of which each sum shows whose are in it.

use lukhveri::{
    Bar, BuildError, Case, CaseBuilder, Citation, Edge, Frame, Paper, Persons, Plan, PlanBuilder,
    Status,
};

use crate::example::{Example, Words};

const SPOUSES: Citation = Citation(1);
const STAFF: Citation = Citation(2);
const VISITOR: Citation = Citation(3);
const LIST: Paper = Paper(1);

fn plan() -> Result<Plan, BuildError> {
    let mut plan = PlanBuilder::new(1);
    let nato_paid = plan.boolean()?;
    let always = plan.literal(true)?;
    let nato_paid = plan.holds(nato_paid)?;
    plan.edge(Edge::base(0, 1, always, SPOUSES))?;
    plan.bar(Bar::new(Persons::of(&[3])?, always, VISITOR))?;
    plan.status(Status::new(0, nato_paid, STAFF))?;
    plan.status(Status::new(2, always, STAFF))?;
    plan.finish()
}

fn case(plan: &Plan) -> Result<Case, BuildError> {
    let frame = Frame { scope: 1, segment: 1 };
    let mut case = CaseBuilder::new(plan, frame, Persons::of(&[0, 1, 2, 3])?)?;
    case.roster_complete(LIST)?;
    case.most_worlds(4)?;
    case.finish()
}

pub fn example() -> Result<Example, BuildError> {
    let plan = plan()?;
    let case = case(&plan)?;
    Ok(Example {
        folder: "choir",
        title: "Amounts pooled by unit",
        story: "Nato and Gela are married. Rezo leads the choir and is paid for it; whether Nato is paid this term, too, nobody has told. \
            Soso is a visitor. Billing brings an amount for each: 1, 10, 100 and 1000 cents, so that each sum shows whose amounts are in it.",
        outcome: "Nato and Gela are a unit, and Nato's role is open (kind 2): the unit's pool is 10 cents and marked open. Rezo is excluded: \
            a unit with nobody to pool. Soso is barred, which is not excluded, and is pooled: 1000 cents. Nato's and Rezo's amounts are \
            unplaced, 101 cents.",
        plan,
        case,
        amounts: &[(0, 1), (1, 10), (2, 100), (3, 1000)],
        sheets: &[],
        words: Words {
            persons: &[(0, "Nato"), (1, "Gela"), (2, "Rezo"), (3, "Soso")],
            facts: &[(0, "Nato is paid by the choir this term")],
            citations: &[
                (SPOUSES.0, "§1 spouses", "Spouses are counted together."),
                (
                    STAFF.0,
                    "§2 staff",
                    "Whoever is paid by the choir is counted in the unit, but is excluded from relief.",
                ),
                (VISITOR.0, "§3 visitors", "A visitor gets no relief."),
            ],
            evidence: &[(LIST.0, "the choir's list, signed as complete")],
            rules: &[],
            actors: &[],
        },
    })
}
