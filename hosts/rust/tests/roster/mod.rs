//! Small rosters, told by how their persons stand: each word is a unit and each letter a person, m a member, e excluded, b barred, o of open role.
#![allow(dead_code)]

use lukhveri::{
    Bar, CaseBuilder, Citation, Edge, Frame, NodeId, Paper, Persons, Plan, PlanBuilder, Status,
};

/// The persons of each word, from 0 on.
pub fn units(words: &str) -> Vec<Persons> {
    let mut numbers = 0..64;
    let persons = |word: &str| -> Vec<u8> { numbers.by_ref().take(word.len()).collect() };
    words.split_whitespace().map(persons).map(|all| Persons::of(&all).expect("persons")).collect()
}

/// The units of the words that have other letters than e.
pub fn households(words: &str) -> Vec<Persons> {
    let all = units(words).into_iter().zip(words.split_whitespace());
    all.filter(|(_, word)| word.chars().any(|letter| letter != 'e')).map(|(unit, _)| unit).collect()
}

/// A plan that makes these units. Node 2 never holds.
pub fn plan(words: &str) -> Plan {
    let mut plan = PlanBuilder::new(1);
    let fact = plan.boolean().expect("a fact");
    let (always, open) = (plan.literal(true).expect("a node"), plan.holds(fact).expect("a node"));
    plan.literal(false).expect("a node");
    plan.base_chain(Citation(9)).expect("a citation");
    for unit in units(words) {
        for (left, right) in unit.iter().zip(unit.iter().skip(1)) {
            plan.edge(Edge::base(left, right, always, Citation(1))).expect("an edge");
        }
    }
    let letters = words.chars().filter(|letter| !letter.is_whitespace());
    for (person, letter) in (0..).zip(letters) {
        stand(&mut plan, person, letter, (always, open));
    }
    plan.finish().expect("a plan")
}

fn stand(plan: &mut PlanBuilder, person: u8, letter: char, (always, open): (NodeId, NodeId)) {
    let alone = Persons::alone(person);
    match letter {
        'm' => {}
        'e' => drop(plan.status(Status::new(person, always, Citation(2))).expect("a status")),
        'o' => drop(plan.status(Status::new(person, open, Citation(2))).expect("a status")),
        'b' => drop(plan.bar(Bar::new(alone, always, Citation(3))).expect("a bar")),
        other => panic!("{other} is no letter of a roster"),
    }
}

/// A case over a plan, before it is said that the roster is complete.
pub fn builder<'a>(plan: &'a Plan, words: &str) -> CaseBuilder<'a> {
    let all = units(words).into_iter().fold(Persons::NOBODY, Persons::union);
    CaseBuilder::new(plan, Frame { scope: 1, segment: 1 }, all).expect("a case")
}

/// The bytes of a plan and of a case over it, with a complete roster.
pub fn roster(words: &str) -> (Vec<u8>, Vec<u8>) {
    let plan = plan(words);
    let mut case = builder(&plan, words);
    case.roster_complete(Paper(1)).expect("evidence");
    let case = case.finish().expect("a case").bytes().to_vec();
    (plan.bytes().to_vec(), case)
}

/// The same with a roster that is not complete, and with a constraint that never holds: kinds 5 and 6.
pub fn without_units(words: &str) -> [(Vec<u8>, Vec<u8>); 2] {
    let plan = plan(words);
    let incomplete = builder(&plan, words).finish().expect("a case").bytes().to_vec();
    let mut case = builder(&plan, words);
    case.roster_complete(Paper(1)).expect("evidence");
    case.constrain(plan.node(2).expect("a node")).expect("a constraint");
    let inconsistent = case.finish().expect("a case").bytes().to_vec();
    [incomplete, inconsistent].map(|case| (plan.bytes().to_vec(), case))
}
