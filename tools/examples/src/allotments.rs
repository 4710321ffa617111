//! An allotment association: a chain, two cuts that collide, papers that contradict each other.

use lukhveri::{
    BuildError, Case, CaseBuilder, Citation, Cut, Edge, Frame, Paper, Persons, Plan, PlanBuilder,
    Status,
};

use crate::example::{Example, Words};

const GARDEN: Citation = Citation(1);
const PLOT: Citation = Citation(2);
const LEFT: Citation = Citation(3);
const LIST: Paper = Paper(1);
const LETTER: Paper = Paper(4);
const NOTICE: Paper = Paper(5);
const FIRST_COPY: Paper = Paper(6);
const SECOND_COPY: Paper = Paper(7);

fn plan() -> Result<Plan, BuildError> {
    let mut plan = PlanBuilder::new(1);
    let irma_left = plan.boolean()?;
    let paata_stays = plan.boolean()?;
    let always = plan.literal(true)?;
    let irma_left = plan.holds(irma_left)?;
    let paata_stays = plan.holds(paata_stays)?;
    let paata_left = plan.not(paata_stays)?;
    plan.edge(Edge::base(0, 1, always, GARDEN))?;
    plan.edge(Edge::base(1, 2, always, GARDEN))?;
    plan.edge(Edge::base(6, 7, always, GARDEN))?;
    plan.cut(Cut::new(Persons::of(&[3, 4])?, always, PLOT))?;
    plan.cut(Cut::new(Persons::of(&[4, 5])?, always, PLOT))?;
    plan.status(Status::new(6, irma_left, LEFT))?;
    plan.status(Status::new(7, paata_left, LEFT))?;
    plan.finish()
}

fn case(plan: &Plan) -> Result<Case, BuildError> {
    let mut case = CaseBuilder::new(
        plan,
        Frame { scope: 1, segment: 1 },
        Persons::of(&[0, 1, 2, 3, 4, 5, 6, 7])?,
    )?;
    case.roster_complete(LIST)?;
    case.most_worlds(64)?;
    if let [Some(irma_left), Some(paata_stays)] = [plan.boolean(0), plan.boolean(1)] {
        case.observe(irma_left, false, LETTER)?;
        case.observe(irma_left, true, NOTICE)?;
        case.observe(paata_stays, true, FIRST_COPY)?;
        case.observe(paata_stays, true, SECOND_COPY)?;
    }
    case.finish()
}

pub fn example() -> Result<Example, BuildError> {
    let plan = plan()?;
    let case = case(&plan)?;
    Ok(Example {
        folder: "allotments",
        title: "A chain, a collision and a contradiction",
        story: "Rusa and Temur keep a garden together, and so do Temur and Lali, but Rusa and Lali do not. Manana and Zaza have taken a plot of \
            their own; so, on another paper, have Zaza and Keti. Irma and Paata keep a garden together; of Irma one paper says that she has \
            left the association and another that she has not. Of Paata two papers say that he stays.",
        outcome: "Rusa, Temur and Lali hang together by a chain only: kind 4. Manana, Zaza and Keti are claimed by two plots: kind 3. Irma's \
            unit is certain, her role is open: kind 2. Paata is decided; two papers that agree are a Conflict with one value, and make no \
            further world.",
        plan,
        case,
        amounts: &[],
        sheets: &[],
        words: Words {
            persons: &[
                (0, "Rusa"),
                (1, "Temur"),
                (2, "Lali"),
                (3, "Manana"),
                (4, "Zaza"),
                (5, "Keti"),
                (6, "Irma"),
                (7, "Paata"),
            ],
            facts: &[(0, "Irma has left the association"), (1, "Paata stays in the association")],
            citations: &[
                (
                    GARDEN.0,
                    "§1 common gardens",
                    "Those who keep a garden together are counted together.",
                ),
                (
                    PLOT.0,
                    "§2 own plots",
                    "Those who have taken a plot of their own are counted apart.",
                ),
                (
                    LEFT.0,
                    "§3 those who left",
                    "Whoever has left is excluded from relief until the end of the season.",
                ),
            ],
            evidence: &[
                (LIST.0, "the association's list, signed as complete"),
                (LETTER.0, "Irma's letter: she stays"),
                (NOTICE.0, "the board's note: Irma has left"),
                (FIRST_COPY.0, "Paata's form"),
                (SECOND_COPY.0, "Paata's second form"),
            ],
            rules: &[],
            actors: &[],
        },
    })
}
