//! The builders: bytes by hand, order of facts, and what is turned away.

use lukhveri::{
    Actor, Attachment, Bar, BuildError, CaseBuilder, Citation, Cut, Decision, Edge, Election,
    Family, Frame, Paper, Persons, PlanBuilder, Policy, Precedence, Status,
};

fn persons(numbers: &[u8]) -> Persons {
    Persons::of(numbers).expect("persons")
}

#[test]
fn the_smallest_plan_and_case() {
    let mut plan = PlanBuilder::new(7);
    let always = plan.literal(true).expect("a node");
    plan.edge(Edge::base(0, 1, always, Citation(5))).expect("an edge");
    let plan = plan.finish().expect("a plan");
    assert_eq!(plan.bytes(), [1, 1, 7, 3, 1, 1, 4, 15, 0, 1, 0, 5]);
    let mut case = CaseBuilder::new(&plan, Frame { scope: 1, segment: 2 }, persons(&[0, 1, 2]))
        .expect("a case");
    case.roster_complete(Paper(9)).expect("evidence");
    let case = case.finish().expect("a case");
    assert_eq!(case.bytes(), [1, 127, 7, 1, 2, 7, 0, 0, 0, 0, 0, 0, 0, 9, 0, 16]);
}

#[test]
fn facts_are_sorted_and_handles_follow() {
    let mut plan = PlanBuilder::new(1);
    let late = plan.relation(9, &[1, 2]).expect("a fact");
    let first = plan.boolean().expect("a fact");
    let early = plan.relation(9, &[1]).expect("a fact");
    let second = plan.boolean().expect("a fact");
    assert_eq!(plan.relation(9, &[1, 2]), Ok(late));
    plan.holds(late).expect("a node");
    plan.holds(second).expect("a node");
    let plan = plan.finish().expect("a plan");
    assert_eq!(plan.fact_number(first), Some(0));
    assert_eq!(plan.fact_number(second), Some(1));
    assert_eq!(plan.fact_number(early), Some(2));
    assert_eq!(plan.fact_number(late), Some(3));
    assert_eq!(plan.boolean(1), Some(second));
    assert_eq!(plan.relation(3), Some(late));
    assert_eq!(plan.relation(0), None);
    assert_eq!(
        plan.bytes(),
        [1, 1, 1, 2, 0, 2, 0, 2, 3, 9, 1, 1, 2, 3, 9, 2, 1, 2, 3, 2, 3, 3, 2, 1]
    );
}

#[test]
fn every_rule_is_written() {
    let mut plan = PlanBuilder::new(1);
    plan.base_chain(Citation(3)).expect("a citation");
    let wish = plan.boolean().expect("a fact");
    let wished = plan.holds(wish).expect("a node");
    let never = plan.literal(false).expect("a node");
    let both = plan.and(&[wished, never]).expect("a node");
    let one = plan.or(&[]).expect("a node");
    let not = plan.not(both).expect("a node");
    let edge = plan.edge(Edge::combination(0, 1, not, Citation(4)).unless(one)).expect("an edge");
    let election = Election {
        fact: wish,
        actor: Actor(8),
        policy: Policy::DefaultTrue,
        citation: Citation(6),
    };
    let cut = Cut::new(persons(&[0]), wished, Citation(5)).elected(election);
    let cut = plan.cut(cut.deciding(edge, Decision::Unresolved)).expect("a cut");
    plan.precede(Precedence { cut, precedes: cut }).expect("precedence");
    let rule = Attachment::new(persons(&[2]), 1, wished, Citation(7), Actor(9));
    plan.attachment(rule.elected(election)).expect("an attachment");
    plan.bar(Bar::new(persons(&[63]), one, Citation(8))).expect("a bar");
    plan.status(Status::new(2, one, Citation(9))).expect("a status");
    let bytes = plan.finish().expect("a plan").bytes().to_vec();
    let wanted: [&[u8]; 12] = [
        &[1, 3, 1, 3],
        &[2, 0],
        &[3, 2, 0],
        &[3, 1, 0],
        &[3, 4, 2, 0, 1],
        &[3, 8, 0],
        &[3, 16, 2],
        &[4, 63, 0, 1, 4, 4, 1, 3],
        &[5, 63, 1, 0, 0, 0, 0, 0, 0, 0, 0, 5, 0, 8, 2, 6, 1, 0, 3, 1, 0],
        &[6, 63, 4, 0, 0, 0, 0, 0, 0, 0, 1, 0, 7, 9, 0, 8, 2, 6],
        &[7, 7, 0, 0, 0, 0, 0, 0, 0, 128, 3, 8],
        &[8, 7, 2, 3, 9],
    ];
    assert_eq!(bytes, wanted.concat());
}

#[test]
fn a_case_of_everything() {
    let mut plan = PlanBuilder::new(1);
    let wish = plan.boolean().expect("a fact");
    let silent = plan.boolean().expect("a fact");
    let lives = plan.relation(4, &[0]).expect("a fact");
    let node = plan.holds(wish).expect("a node");
    let plan = plan.finish().expect("a plan");
    let mut case =
        CaseBuilder::new(&plan, Frame { scope: 3, segment: 2 }, persons(&[0])).expect("a case");
    case.segment_incomplete();
    case.most_worlds(2).expect("a number");
    case.relate(lives, true, Paper(1)).expect("a relation");
    assert_eq!(case.finish(), Err(BuildError::NoFamily { family: 4 }));
    case.family(Family::new(4).complete(Paper(2))).expect("a family");
    case.family(Family::new(5).scope(0)).expect("a family");
    case.observe(wish, true, Paper(1)).expect("an observation");
    case.observe(wish, false, Paper(2)).expect("an observation");
    case.unknown(silent, Paper(3)).expect("unknown");
    case.constrain(node).expect("a constraint");
    let wanted: [&[u8]; 7] = [
        &[1, 0x57, 1, 3, 2, 1, 0, 0, 0, 0, 0, 0, 0, 2, 0],
        &[2, 7, 4, 3, 2],
        &[2, 3, 5, 0],
        &[3, 5, 0, 2, 1, 1, 0, 2],
        &[3, 3, 1, 3],
        &[4, 7, 2, 1, 1],
        &[5, 1, 0],
    ];
    assert_eq!(case.finish().expect("a case").bytes(), wanted.concat());
    assert_eq!(
        case.observe(silent, true, Paper(0)),
        Err(BuildError::UnknownAndObserved { fact: silent })
    );
    assert_eq!(case.unknown(wish, Paper(0)), Err(BuildError::UnknownAndObserved { fact: wish }));
    assert_eq!(case.unknown(silent, Paper(0)), Err(BuildError::UnknownTwice { fact: silent }));
    assert_eq!(case.family(Family::new(4)), Err(BuildError::FamilyTwice { family: 4 }));
}

#[test]
fn numbers_out_of_range() {
    let mut plan = PlanBuilder::new(1);
    let always = plan.literal(true).expect("a node");
    let says = |result: Result<(), BuildError>| result.expect_err("out of range").to_string();
    let edge = plan.edge(Edge::base(0, 64, always, Citation(5))).map(|_| ());
    assert_eq!(says(edge), "person 64 is outside 0 to 63");
    let edge = plan.edge(Edge::base(0, 1, always, Citation(64))).map(|_| ());
    assert_eq!(says(edge), "citation 64 is outside 0 to 63");
    let rule = plan.attachment(Attachment::new(persons(&[0]), 1, always, Citation(1), Actor(0)));
    assert_eq!(says(rule.map(|_| ())), "actor 0 is outside 1 to 255");
    assert_eq!(says(Persons::of(&[3, 200]).map(|_| ())), "person 200 is outside 0 to 63");
    let tuple = plan.relation(1, &[0; 5]).map(|_| ());
    assert_eq!(says(tuple), "more than 4 persons in a tuple");
    assert_eq!(plan.records().edges.len(), 0);
}

#[test]
fn limits_of_a_plan() {
    let mut plan = PlanBuilder::new(1);
    let always = plan.literal(true).expect("a node");
    for _ in 1..256 {
        plan.literal(true).expect("a node");
    }
    assert_eq!(plan.literal(true), Err(BuildError::TooMany { what: "nodes", most: 256 }));
    let edges: Vec<_> = (0..64)
        .map(|_| plan.edge(Edge::combination(0, 1, always, Citation(0))).expect("an edge"))
        .collect();
    assert!(plan.edge(Edge::base(0, 1, always, Citation(0))).is_err());
    let cut = plan.cut(Cut::new(persons(&[0]), always, Citation(0))).expect("a cut");
    assert_eq!(plan.undecided().count(), 64);
    assert_eq!(plan.finish().err(), Some(BuildError::Undecided { cut, edge: edges[0] }));
    for (at, &edge) in edges.iter().enumerate() {
        let decided = plan.decide(cut, edge, Decision::Unresolved);
        assert_eq!(decided.is_ok(), at < 16);
        if at >= 16 {
            plan.decide(cut, edge, Decision::Blocked).expect("a decision");
        }
    }
    let twice = plan.decide(cut, edges[0], Decision::Blocked);
    assert_eq!(twice, Err(BuildError::DecidedTwice { edge: edges[0] }));
    assert!(plan.finish().is_ok());
}

#[test]
fn handles_of_another_plan() {
    let mut other = PlanBuilder::new(1);
    let node = other.literal(true).expect("a node");
    let mut plan = PlanBuilder::new(1);
    plan.literal(true).expect("a node");
    assert_eq!(plan.not(node), Err(BuildError::NotOfThisPlan { what: "node" }));
    let early = plan.finish().expect("a plan");
    let newer = plan.boolean().expect("a fact");
    assert_eq!(early.fact_number(newer), None);
    let mut case =
        CaseBuilder::new(&early, Frame { scope: 1, segment: 1 }, persons(&[0])).expect("a case");
    assert!(case.unknown(newer, Paper(0)).is_err());
    assert!(case.constrain(node).is_err());
}

#[test]
fn elections_on_one_fact_are_equal() {
    let mut plan = PlanBuilder::new(1);
    let wish = plan.boolean().expect("a fact");
    let node = plan.holds(wish).expect("a node");
    let election =
        Election { fact: wish, actor: Actor(8), policy: Policy::Unknown, citation: Citation(6) };
    let cut = Cut::new(persons(&[0]), node, Citation(5));
    plan.cut(cut.clone().elected(election)).expect("a cut");
    let other = cut.elected(Election { actor: Actor(9), ..election });
    assert_eq!(plan.cut(other), Err(BuildError::ElectionsDiffer { fact: wish }));
}

#[test]
fn rosters() {
    let mut plan = PlanBuilder::new(1);
    let always = plan.literal(true).expect("a node");
    plan.status(Status::new(5, always, Citation(0))).expect("a status");
    let plan = plan.finish().expect("a plan");
    let nobody = CaseBuilder::new(&plan, Frame { scope: 1, segment: 1 }, Persons::NOBODY).err();
    assert_eq!(nobody, Some(BuildError::EmptyRoster));
    let off = CaseBuilder::new(&plan, Frame { scope: 1, segment: 1 }, persons(&[1])).err();
    assert_eq!(off, Some(BuildError::OffRoster { persons: persons(&[5]) }));
    assert!(CaseBuilder::new(&plan, Frame { scope: 0, segment: 1 }, persons(&[5])).is_err());
    assert!(CaseBuilder::new(&plan, Frame { scope: 1, segment: 0 }, persons(&[5])).is_err());
}
