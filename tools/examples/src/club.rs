//! A sports club: a guest who is attached, visitors who are barred, staff who are excluded.

use lukhveri::{
    Actor, Attachment, Bar, BuildError, Case, CaseBuilder, Citation, Edge, Election, Frame, Paper,
    Persons, Plan, PlanBuilder, Policy, Status,
};

use crate::example::{Example, Words};

const SPOUSES: Citation = Citation(1);
const CHILD: Citation = Citation(2);
const GUEST: Citation = Citation(3);
const HOST_SIGNS: Citation = Citation(4);
const VISITOR: Citation = Citation(5);
const STAFF: Citation = Citation(6);
const LIST: Paper = Paper(1);
const AGREEMENT: Paper = Paper(7);
const PAYROLL: Paper = Paper(8);
const OTARS_FORM: Paper = Paper(9);
const HOST: Actor = Actor(1);

fn plan() -> Result<Plan, BuildError> {
    let mut plan = PlanBuilder::new(1);
    let agreed = plan.boolean()?;
    let otar_paid = plan.boolean()?;
    let guram_paid = plan.boolean()?;
    let always = plan.literal(true)?;
    let signed = plan.holds(agreed)?;
    let otar_paid = plan.holds(otar_paid)?;
    let guram_paid = plan.holds(guram_paid)?;
    plan.edge(Edge::base(0, 1, always, SPOUSES))?;
    plan.edge(Edge::base(4, 5, always, CHILD))?;
    let policy = Policy::Unknown;
    let election = Election { fact: agreed, actor: HOST, policy, citation: HOST_SIGNS };
    let (sandro, vera) = (Persons::of(&[2])?, Persons::of(&[3])?);
    plan.attachment(Attachment::new(sandro, 0, signed, GUEST, HOST).elected(election))?;
    plan.bar(Bar::new(sandro, always, VISITOR))?;
    plan.bar(Bar::new(vera, always, VISITOR))?;
    plan.status(Status::new(1, otar_paid, STAFF))?;
    plan.status(Status::new(4, guram_paid, STAFF))?;
    plan.finish()
}

fn case(plan: &Plan) -> Result<Case, BuildError> {
    let mut case =
        CaseBuilder::new(plan, Frame { scope: 1, segment: 1 }, Persons::of(&[0, 1, 2, 3, 4, 5])?)?;
    case.roster_complete(LIST)?;
    case.most_worlds(64)?;
    let facts = [plan.boolean(0), plan.boolean(1), plan.boolean(2)];
    if let [Some(agreed), Some(otar_paid), Some(guram_paid)] = facts {
        case.observe(agreed, true, AGREEMENT)?;
        case.unknown(otar_paid, OTARS_FORM)?;
        case.observe(guram_paid, true, PAYROLL)?;
    }
    case.finish()
}

pub fn example() -> Result<Example, BuildError> {
    let plan = plan()?;
    let case = case(&plan)?;
    Ok(Example {
        folder: "club",
        title: "A guest, a visitor and two trainers",
        story: "Marta and Otar are married and host Sandro, a guest student; the agreement is signed. Vera is a visitor without a host. Guram is \
            paid by the club as a trainer and has a daughter, Lia. Whether Otar is paid this season is not known yet.",
        outcome: "Sandro counts with Marta and Otar, and the bar on visitors does not touch him: whoever is attached is spared. Vera is \
            barred. Guram is excluded, but stays in the unit with Lia. Otar's unit is certain and his role is open (kind 2).",
        plan,
        case,
        amounts: &[],
        sheets: &[],
        words: Words {
            persons: &[
                (0, "Marta"),
                (1, "Otar"),
                (2, "Sandro"),
                (3, "Vera"),
                (4, "Guram"),
                (5, "Lia"),
            ],
            facts: &[
                (0, "Marta and Otar agreed to host Sandro"),
                (1, "Otar is paid by the club this season"),
                (2, "Guram is paid by the club this season"),
            ],
            citations: &[
                (SPOUSES.0, "§1 spouses", "Spouses are counted together."),
                (CHILD.0, "§2 child and parent", "A child is counted with the parent."),
                (GUEST.0, "§3 guest students", "A guest student is counted with the host family."),
                (
                    HOST_SIGNS.0,
                    "§4 host agreements",
                    "The host signs the agreement; without it nothing is known.",
                ),
                (
                    VISITOR.0,
                    "§5 visitors",
                    "A visitor without an address in town gets no relief, unless placed with a host.",
                ),
                (
                    STAFF.0,
                    "§6 staff",
                    "Whoever is paid by the club is counted in the unit, but is excluded from relief.",
                ),
            ],
            evidence: &[
                (LIST.0, "the club's list, signed as complete"),
                (AGREEMENT.0, "the host agreement, signed"),
                (PAYROLL.0, "the payroll of this season"),
                (OTARS_FORM.0, "Otar's form: contract not settled"),
            ],
            rules: &[],
            actors: &[(HOST.0, "the host")],
        },
    })
}
