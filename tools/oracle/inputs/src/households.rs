//! Inputs for counting households: blocks of a few persons, now and then of one or of many, nobody, some or all of whom are excluded or barred, for
//! certain or perhaps.

use crate::build;
use crate::generate::{Input, choose_persons};
use crate::random::Random;
use crate::wire::{Boolean, Case, Node, Plan};

/// Records of one kind that a plan may have; of edges twice as many.
const MOST: usize = 32;

/// In a hundred: who is excluded, of the blocks of an input.
const CHANCES: [&[usize]; 6] = [&[0], &[100], &MIXED, &MIXED, &MIXED, &MIXED];
const MIXED: [usize; 4] = [0, 60, 60, 100];

pub fn input(random: &mut Random) -> Input {
    let mut persons = persons(random);
    random.shuffle(&mut persons);
    let mut plan = plan(random);
    let case = case(random, &persons, plan.facts.len());
    let largest = random.pick(&[1, 4, 4, 4, 4, 64]);
    let chances = random.pick(&CHANCES);
    let mut rest = &persons[..];
    while !rest.is_empty() {
        let size = if largest == 64 { rest.len() } else { random.between(1, largest) };
        let (block, others) = rest.split_at(size.min(rest.len()));
        let excluded = random.pick(chances);
        add_block(random, &mut plan, block, excluded);
        rest = others;
    }
    plan.edges.truncate(2 * MOST);
    plan.bars.truncate(MOST);
    plan.statuses.truncate(MOST);
    Input { plan, case }
}

/// Few in most inputs, all in some.
fn persons(random: &mut Random) -> Vec<u8> {
    match random.below(25) {
        0 => (0..64).collect(),
        1 => choose_persons(random, 64),
        _ => choose_persons(random, 8),
    }
}

/// Node 0 is true, node 1 false, the others are facts and their contraries.
fn plan(random: &mut Random) -> Plan {
    let facts = random.between(1, 3) as u8;
    let mut nodes = vec![Node::Literal(1), Node::Literal(0)];
    nodes.extend((0..facts).map(Node::Fact));
    nodes.push(Node::Not(random.between(2, 1 + facts as usize) as u8));
    let chain = random.percent(85).then(|| random.byte(64));
    Plan { chain, facts: vec![None; facts as usize], nodes, ..Plan::default() }
}

/// True in most places.
fn condition(random: &mut Random, plan: &Plan) -> u8 {
    if random.percent(70) { 0 } else { random.byte(plan.nodes.len()) }
}

/// Joined one to the next, if their edges hold; so many in a hundred excluded; nobody barred, one or all.
fn add_block(random: &mut Random, plan: &mut Plan, block: &[u8], excluded: usize) {
    for pair in block.windows(2) {
        let condition = if random.percent(90) { 0 } else { condition(random, plan) };
        plan.edges.push(build::base(pair[0], pair[1], condition));
    }
    for &person in block {
        if random.percent(excluded) {
            plan.statuses.push(build::status(person, condition(random, plan)));
        }
    }
    let barred = match random.below(3) {
        0 => block,
        1 => &block[..1],
        _ => return,
    };
    plan.bars.push(build::bar(barred, condition(random, plan)));
}

/// Of half of the facts nothing is known; the roster is complete but for a few.
fn case(random: &mut Random, persons: &[u8], facts: usize) -> Case {
    let mut case = build::case(build::set(persons));
    for fact in 0..facts {
        if random.percent(50) {
            case.booleans.push(observed(random, fact as u8));
        }
    }
    if random.percent(2) {
        case.complete = None;
    }
    case
}

/// Known, or a conflict now and then.
fn observed(random: &mut Random, fact: u8) -> Boolean {
    let count = random.pick(&[1, 1, 1, 2]);
    let observations: Vec<(u8, u8)> = (0..count).map(|at| (random.byte(2), at)).collect();
    build::observe(fact, &observations)
}
