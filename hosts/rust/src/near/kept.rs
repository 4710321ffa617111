//! Plan and case with all that is strangers' left out.

use crate::case_records::{BooleanRecord, CaseRecords, FamilyRecord, RelationRecord};
use crate::near::said::{Said, said};
use crate::near::touch::{Touch, Touching, touching};
use crate::operations::circle;
use crate::persons::Persons;
use crate::plan::Plan;
use crate::plan_reader;
use crate::records::{Decision, Fact, Node, Records};

/// What belongs to a circle.
pub(crate) struct Kept {
    pub(crate) circle: Persons,
    pub(crate) plan: Plan,
    pub(crate) case: CaseRecords,
    /// The bound facts that touch it, rising, each with what the case says of it.
    pub(crate) facts: Vec<(Touching, Said)>,
    /// Its unresolved decisions, each by its place among all of the plan's.
    pub(crate) decisions: Vec<u8>,
}

impl Kept {
    /// The circle of a person; none where plan or case cannot be read.
    pub(crate) fn of(plan: &Plan, case: &CaseRecords, person: u8) -> Option<Kept> {
        let heading = heading(case);
        let circle = circle(plan.bytes(), &heading.bytes(), person)?;
        let facts = facts(plan, case, circle);
        let own: Vec<u8> = facts.iter().map(|(touching, _)| touching.fact).collect();
        let case = own_case(plan, heading, &facts);
        let decisions = own_decisions(plan, circle);
        Some(Kept { circle, plan: own_plan(plan, circle, &own)?, case, facts, decisions })
    }

    /// All of a plan and a case, whoever is touched.
    pub(crate) fn whole(plan: &Plan, case: &CaseRecords) -> Kept {
        let touch = Touch::of(plan, case.roster, &case.constraints);
        let facts = touch.facts().into_iter().map(|fact| with_said(plan, case, fact)).collect();
        let decisions = (0..).zip(plan.decisions()).map(|(place, _)| place).collect();
        let circle = Persons::from_mask(u64::MAX);
        Kept { circle, plan: plan.clone(), case: case.clone(), facts, decisions }
    }
}

fn with_said(plan: &Plan, case: &CaseRecords, fact: Touching) -> (Touching, Said) {
    let said = said(plan, case, fact.fact);
    (fact, said)
}

/// The bound facts that touch somebody of the circle.
fn facts(plan: &Plan, case: &CaseRecords, circle: Persons) -> Vec<(Touching, Said)> {
    let facts = touching(plan, case, circle).into_iter();
    facts.map(|fact| with_said(plan, case, fact)).collect()
}

/// A case with the heading and the constraints of this one, which says nothing of facts.
fn heading(case: &CaseRecords) -> CaseRecords {
    let (families, booleans, relations) = (Vec::new(), Vec::new(), Vec::new());
    CaseRecords { families, booleans, relations, ..case.clone() }
}

fn whom(records: &Records, members: Persons, edge: u8) -> Persons {
    let edge = records.edges.get(usize::from(edge));
    edge.map_or(members, |edge| members.union(edge.ends()))
}

/// Those that join persons of the circle.
fn own_decisions(plan: &Plan, circle: Persons) -> Vec<u8> {
    let records = plan.records();
    let all = plan.decisions().into_iter().zip(0..);
    let own = all.filter(|((cut, edge), _)| {
        let cut = records.cuts.get(usize::from(cut.number));
        cut.is_some_and(|cut| whom(records, cut.members, edge.number).meets(circle))
    });
    own.map(|(_, place)| place).collect()
}

/// Facts that are not the circle's own are false, decisions of others are settled: nothing of the circle hangs on them.
fn own_plan(plan: &Plan, circle: Persons, own: &[u8]) -> Option<Plan> {
    let (handles, mut records) = plan_reader::read(plan.bytes())?;
    for node in &mut records.nodes {
        if let Node::Fact(fact) = node
            && !own.contains(&fact.number)
        {
            *node = Node::Literal(false);
        }
    }
    let before = records.clone();
    for cut in &mut records.cuts {
        for (edge, said) in &mut cut.decisions {
            if !whom(&before, cut.members, edge.number).meets(circle) {
                *said = settled(*said);
            }
        }
    }
    Some(Plan::of(handles, records))
}

fn settled(said: Decision) -> Decision {
    if said == Decision::Unresolved { Decision::Blocked } else { said }
}

/// The heading and what is said of these facts, in one order, so that nothing else of the case can show in it.
fn own_case(plan: &Plan, heading: CaseRecords, facts: &[(Touching, Said)]) -> CaseRecords {
    let mut case = heading;
    for (touching, said) in facts {
        match plan.fact(touching.fact).map(|(_, fact)| fact) {
            Some(Fact::Relation { family, .. }) => {
                relation(&mut case, touching.fact, *family, said)
            }
            _ => boolean(&mut case, touching.fact, said),
        }
    }
    case
}

fn boolean(case: &mut CaseRecords, fact: u8, said: &Said) {
    let (unknown, observations) = match said {
        Said::Unknown { evidence } => (Some(*evidence), Vec::new()),
        Said::Observed(pairs) => (None, pairs.iter().copied().collect()),
        _ => return,
    };
    case.booleans.push(BooleanRecord { fact, unknown, observations });
}

fn relation(case: &mut CaseRecords, fact: u8, number: u8, said: &Said) {
    let (scope, complete) = match said {
        Said::OtherScope { .. } => (0, None),
        Said::Silence { evidence, .. } => (case.scope, Some(*evidence)),
        Said::Observed(_) => (case.scope, None),
        _ => return,
    };
    let there = case.families.iter().position(|family| family.number == number);
    match there.and_then(|at| case.families.get_mut(at)) {
        Some(family) => family.complete = family.complete.or(complete),
        None => case.families.push(FamilyRecord { number, scope, complete }),
    }
    if let Said::Observed(pairs) = said {
        let records =
            pairs.iter().map(|&(value, evidence)| RelationRecord { fact, value, evidence });
        case.relations.extend(records);
    }
}
