//! A summer camp that counts households: units that are none, and units that look like it and are one.

use lukhveri::{
    Bar, BuildError, Case, CaseBuilder, Citation, Edge, Frame, Paper, Persons, Plan, PlanBuilder,
    Status,
};

use crate::example::{Example, Words};

const FAMILY: Citation = Citation(1);
const FLAT: Citation = Citation(2);
const STAFF: Citation = Citation(3);
const VISITOR: Citation = Citation(4);
const LIST: Paper = Paper(1);

fn plan() -> Result<Plan, BuildError> {
    let mut plan = PlanBuilder::new(1);
    let keto_works = plan.boolean()?;
    let always = plan.literal(true)?;
    let keto_works = plan.holds(keto_works)?;
    plan.edge(Edge::base(0, 1, always, FAMILY))?;
    plan.edge(Edge::combination(2, 3, always, FLAT))?;
    plan.edge(Edge::base(5, 6, always, FAMILY))?;
    plan.bar(Bar::new(Persons::of(&[4])?, always, VISITOR))?;
    plan.status(Status::new(0, always, STAFF))?;
    plan.status(Status::new(1, always, STAFF))?;
    plan.status(Status::new(2, always, STAFF))?;
    plan.status(Status::new(3, keto_works, STAFF))?;
    plan.finish()
}

fn case(plan: &Plan) -> Result<Case, BuildError> {
    let frame = Frame { scope: 1, segment: 1 };
    let mut case = CaseBuilder::new(plan, frame, Persons::of(&[0, 1, 2, 3, 4, 5, 6])?)?;
    case.roster_complete(LIST)?;
    case.most_worlds(4)?;
    case.finish()
}

pub fn example() -> Result<Example, BuildError> {
    let plan = plan()?;
    let case = case(&plan)?;
    Ok(Example {
        folder: "camp",
        title: "Units that are no household",
        story: "Maro and Tengo are married, and both work at the camp. Vaso, who works there, too, shares a flat with Keto; whether Keto works \
            there this summer, nobody has told. Ilia is a visitor. Daro is there with her daughter Nini. Whoever works at the camp is excluded \
            from the relief.",
        outcome: "There are four units. Maro and Tengo are one, but no household: both are excluded. Vaso and Keto are a household, though Vaso \
            is excluded: Keto's role is open (kind 2). Ilia is one, for barred is not excluded, and so are Daro and Nini. The last row counts \
            these three. The pool of Maro and Tengo is listed all the same: 0 cents.",
        plan,
        case,
        amounts: &[(0, 1), (1, 10), (2, 100), (3, 1000), (4, 10_000), (5, 100_000), (6, 1_000_000)],
        sheets: &[],
        words: Words {
            persons: &[
                (0, "Maro"),
                (1, "Tengo"),
                (2, "Vaso"),
                (3, "Keto"),
                (4, "Ilia"),
                (5, "Daro"),
                (6, "Nini"),
            ],
            facts: &[(0, "Keto works at the camp this summer")],
            citations: &[
                (
                    FAMILY.0,
                    "§1 family",
                    "Spouses, parents and their children are counted together.",
                ),
                (FLAT.0, "§2 flat", "Whoever shares a flat is counted together."),
                (
                    STAFF.0,
                    "§3 staff",
                    "Whoever works at the camp is counted in the unit, but is excluded from relief.",
                ),
                (VISITOR.0, "§4 visitors", "A visitor gets no relief."),
            ],
            evidence: &[(LIST.0, "the camp's list, signed as complete")],
            rules: &[],
            actors: &[],
        },
    })
}
