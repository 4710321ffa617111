//! A school kitchen: a cut, a Combination edge across it, and nobody has decided which of the two wins.

use lukhveri::{
    Actor, BuildError, Case, CaseBuilder, Citation, Cut, Decision, Edge, Election, Family, Frame,
    Paper, Persons, Plan, PlanBuilder, Policy,
};

use crate::example::{Example, Words};

const CHILD: Citation = Citation(1);
const POT: Citation = Citation(2);
const PENSION: Citation = Citation(3);
const SILENCE: Citation = Citation(4);
const GROWN: Citation = Citation(5);
const LIST: Paper = Paper(1);
const NANAS_FORM: Paper = Paper(5);
const PENSIONER: Actor = Actor(1);
const GROWN_CHILD: Actor = Actor(2);
const ONE_POT: u8 = 1;

fn plan() -> Result<Plan, BuildError> {
    let mut plan = PlanBuilder::new(1);
    let nana_asked = plan.boolean()?;
    let zura_asked = plan.boolean()?;
    let pot = plan.relation(ONE_POT, &[0, 2])?;
    let always = plan.literal(true)?;
    let nana = plan.holds(nana_asked)?;
    let zura = plan.holds(zura_asked)?;
    let pot = plan.holds(pot)?;
    plan.edge(Edge::base(0, 1, always, CHILD))?;
    let nana_eats = plan.edge(Edge::combination(0, 2, pot, POT))?;
    let zura_eats = plan.edge(Edge::combination(3, 4, always, POT))?;
    let asks =
        |fact, actor| Election { fact, actor, policy: Policy::DefaultFalse, citation: SILENCE };
    let apart = Cut::new(Persons::of(&[2])?, nana, PENSION).elected(asks(nana_asked, PENSIONER));
    plan.cut(apart.deciding(nana_eats, Decision::Unresolved))?;
    let apart = Cut::new(Persons::of(&[4])?, zura, GROWN).elected(asks(zura_asked, GROWN_CHILD));
    plan.cut(apart.deciding(zura_eats, Decision::Overrides))?;
    plan.finish()
}

fn case(plan: &Plan) -> Result<Case, BuildError> {
    let mut case =
        CaseBuilder::new(plan, Frame { scope: 1, segment: 1 }, Persons::of(&[0, 1, 2, 3, 4])?)?;
    case.roster_complete(LIST)?;
    case.most_worlds(64)?;
    case.family(Family::new(ONE_POT))?;
    if let Some(nana_asked) = plan.boolean(0) {
        case.observe(nana_asked, true, NANAS_FORM)?;
    }
    case.finish()
}

pub fn example() -> Result<Example, BuildError> {
    let plan = plan()?;
    let case = case(&plan)?;
    Ok(Example {
        folder: "kitchen",
        title: "A grandmother who asks to be counted apart",
        story: "Luka eats at school; Eka is his mother. Grandmother Nana has asked to be counted apart, as people over 65 may. Whether she eats \
            from one pot with Eka is not known. If she does, two paragraphs pull at her, and the rule book does not say which wins: the \
            decision is left unresolved. Uncle Irakli and his grown son Zura eat together; Zura could ask to be counted apart, and has not.",
        outcome: "There are four worlds. Eka, Luka and Nana have to wait: their lines name fact 2 and decision 0 as open. If Nana does not \
            eat with Eka, nobody needs to take the decision. Irakli and Zura are a unit today: Zura's silence means no (event 8).",
        plan,
        case,
        amounts: &[],
        sheets: &[],
        words: Words {
            persons: &[(0, "Eka"), (1, "Luka"), (2, "Nana"), (3, "Irakli"), (4, "Zura")],
            facts: &[
                (0, "Nana asked to be counted apart"),
                (1, "Zura asked to be counted apart"),
                (2, "Eka and Nana eat from one pot"),
            ],
            citations: &[
                (
                    CHILD.0,
                    "§1 child and parent",
                    "Parent and child at one address are counted together.",
                ),
                (POT.0, "§2 one pot", "Those who eat from one pot are counted together."),
                (PENSION.0, "§3 over 65", "Whoever is over 65 may ask to be counted apart."),
                (SILENCE.0, "§4 silence", "Nobody is counted apart who has not asked for it."),
                (GROWN.0, "§5 grown children", "A grown child may ask to be counted apart."),
            ],
            evidence: &[
                (LIST.0, "the school's list, signed as complete"),
                (NANAS_FORM.0, "Nana's form, signed"),
            ],
            rules: &[
                ("edge", 1, "the one pot"),
                ("cut", 0, "Nana's wish"),
                ("decision", 0, "does Nana's wish outweigh the one pot?"),
            ],
            actors: &[(PENSIONER.0, "a person over 65"), (GROWN_CHILD.0, "a grown child")],
        },
    })
}
