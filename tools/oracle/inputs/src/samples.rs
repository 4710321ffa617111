//! Inputs for comparing the proved code: for binding with many variables,
//! counts of worlds up to 2^80 and what binding refuses; for whole answers of
//! all sorts.

use crate::build;
use crate::calls;
use crate::generate::{self, Input, Size};
use crate::random::Random;
use crate::wire::{BLOCKED, Case, Node, Plan, Status, UNRESOLVED};

/// Facts up to 64, unresolved decisions up to 16, most of them open.
const OPEN: Size = Size {
    persons: 12,
    booleans: 32,
    relations: 32,
    composites: 20,
    edges: 40,
    cuts: 12,
    attachments: 3,
    bars: 4,
    statuses: 4,
    unresolved: 16,
    open: 80,
};

/// Bytes to compare on, and what they were made from if that may be shrunk.
pub struct Sample {
    pub plan: Vec<u8>,
    pub case: Vec<u8>,
    pub source: Option<Input>,
}

impl Sample {
    pub fn of(input: Input) -> Sample {
        Sample { plan: input.plan.encode(), case: input.case.encode(), source: Some(input) }
    }

    fn bytes((plan, case): (Vec<u8>, Vec<u8>)) -> Sample {
        let source = None;
        Sample { plan, case, source }
    }
}

/// For whole answers: of the domain compared with the Rust, of plans that only document 01 accepts, of damaged bytes, and of what is at the
/// limits of binding.
pub fn answerable(random: &mut Random) -> Sample {
    match random.below(20) {
        0..=8 => Sample::of(generate::mixed(random)),
        9..=11 => {
            let mut input = generate::mixed(random);
            generate::loosen(random, &mut input.plan);
            Sample::of(input)
        }
        12..=14 => Sample::bytes(calls::wild(random)),
        15..=17 => Sample::bytes(calls::damaged(random)),
        _ => self::random(random),
    }
}

/// For binding.
pub fn random(random: &mut Random) -> Sample {
    if random.percent(15) {
        return Sample::bytes(calls::damaged(random));
    }
    let mut input = match random.below(20) {
        0 => apart(random),
        1..=10 => generate::mixed(random),
        _ => open(random),
    };
    if random.percent(25) {
        for _ in 0..random.between(1, 3) {
            spoil(random, &mut input.case);
        }
    }
    Sample::of(input)
}

/// Every fact is used; now and then all are boolean and nothing is said of most of them.
fn open(random: &mut Random) -> Input {
    let size = match random.below(3) {
        0 => Size { booleans: 64, relations: 0, open: 100, ..OPEN },
        1 => Size { open: 40, ..OPEN },
        _ => OPEN,
    };
    let mut input = generate::input(random, size);
    let all = use_all(&mut input.plan);
    if random.percent(50) {
        input.case.constraints.push(all);
    } else {
        let person = input.case.roster.trailing_zeros() as u8;
        input.plan.statuses.push(status(person, all));
    }
    input
}

/// Unresolved decisions that touch different persons, so that their order shows: cuts of one person, edges of two others, written in any order.
fn apart(random: &mut Random) -> Input {
    let mut plan = build::plan();
    let edges = random.between(1, 16) as u8;
    let ends = (0..edges).map(|edge| 16 + 2 * edge);
    plan.edges = ends.map(|end| build::combination(end, end + 1, 0)).collect();
    for number in 0..random.between(1, 16) as u8 {
        let mut cut = build::cut(&[number], 0);
        let mut list: Vec<(u8, u8)> = (0..edges).map(|edge| (edge, BLOCKED)).collect();
        random.shuffle(&mut list);
        list.truncate(random.below(5));
        cut.decisions = Some(list);
        plan.cuts.push(cut);
    }
    let decisions = plan.cuts.iter_mut().flat_map(|cut| cut.decisions.iter_mut().flatten());
    for (_, verdict) in decisions.take(16) {
        *verdict = UNRESOLVED;
    }
    let case = build::case(u64::MAX);
    Input { plan, case }
}

fn status(person: u8, condition: u8) -> Status {
    Status { person, condition, citation: 1 }
}

/// A new node that uses every fact.
fn use_all(plan: &mut Plan) -> u8 {
    let first = plan.nodes.len() as u8;
    let facts = plan.facts.len() as u8;
    plan.nodes.extend((0..facts).map(Node::Fact));
    let uses: Vec<u8> = (first..first + facts).collect();
    let parts = first + facts;
    plan.nodes.extend(uses.chunks(16).map(|part| Node::Or(part.to_vec())));
    let all = plan.nodes.len() as u8;
    plan.nodes.push(Node::And((parts..all).collect()));
    all
}

/// What binding refuses: a family or a fact twice, anywhere, explicit unknown beside observations, a small maximum.
fn spoil(random: &mut Random, case: &mut Case) {
    match random.below(4) {
        0 => repeat(random, &mut case.families),
        1 => repeat(random, &mut case.booleans),
        2 => {
            let at = random.below(case.booleans.len());
            if let Some(record) = case.booleans.get_mut(at) {
                record.unknown = Some(random.byte(64));
                record.observations = Some(vec![(random.byte(2), random.byte(64))]);
            }
        }
        _ => case.most_worlds = 1 << random.below(13),
    }
}

fn repeat<T: Clone>(random: &mut Random, records: &mut Vec<T>) {
    if records.is_empty() {
        return;
    }
    let copy = records[random.below(records.len())].clone();
    records.insert(random.below(records.len() + 1), copy);
}

/// So many Unknown facts, half of them relations, and so many unresolved decisions: as many doublings of the one world.
pub fn ladder(facts: usize, decisions: usize, most_worlds: u16) -> Input {
    let mut plan = build::plan();
    let booleans = facts / 2;
    let relation = |fact: usize| Some((7, vec![(fact - booleans) as u8]));
    plan.facts = vec![None; booleans];
    plan.facts.extend((booleans..facts).map(relation));
    let ends = 1..=decisions as u8;
    plan.edges = ends.map(|end| build::combination(0, end, 0)).collect();
    let mut cut = build::cut(&[0], 0);
    let numbers = 0..decisions as u8;
    cut.decisions = Some(numbers.map(|edge| (edge, UNRESOLVED)).collect());
    plan.cuts = vec![cut];
    let all = use_all(&mut plan);
    plan.statuses = vec![status(0, all)];
    let mut case = build::case((1 << 17) - 1);
    case.most_worlds = most_worlds;
    Input { plan, case }
}

/// Every number of facts and of decisions, with the most, and where it can be met with just the maximum that fits and one less.
pub fn ladders() -> Vec<Input> {
    let mut all = Vec::new();
    for facts in 0..=64 {
        for decisions in 0..=16 {
            all.push(ladder(facts, decisions, 4096));
            if facts + decisions <= 12 {
                let fitting = 1 << (facts + decisions);
                all.push(ladder(facts, decisions, fitting));
                all.push(ladder(facts, decisions, fitting - 1));
            }
        }
    }
    all
}
