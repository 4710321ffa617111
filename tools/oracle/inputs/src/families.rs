//! Twelve families of five with one open question each, for measuring: side by
//! side, or joined into one crowd.

use crate::build;
use crate::generate::Input;
use crate::random::Random;
use crate::wire::*;

const FAMILIES: u8 = 12;
const SIZE: u8 = 5;

/// Whether the first two of a family live together: a fact for each family.
const TOGETHER: u8 = 1;

/// Families that nothing joins.
pub fn apart(random: &mut Random) -> Input {
    let mut plan = build::plan();
    plan.chain = Some(0);
    for family in 0..FAMILIES {
        let first = family * SIZE;
        plan.facts.push(Some((TOGETHER, vec![first, first + 1])));
        plan.nodes.push(Node::Fact(family));
        add_rules(&mut plan, random, first, family + 1);
    }
    let mut case = build::case(u64::MAX >> (64 - FAMILIES * SIZE));
    // Not complete, and nothing is observed: every answer is open.
    case.families = vec![Family { number: TOGETHER, scope: Some(1), complete: None }];
    Input { plan, case }
}

/// The same with an edge from each family to the next.
pub fn crowd(random: &mut Random) -> Input {
    let mut input = apart(random);
    let firsts = (0..FAMILIES - 1).map(|family| family * SIZE);
    let edges = firsts.map(|first| build::base(first, first + SIZE, 0));
    input.plan.edges.extend(edges);
    input
}

/// The open question joins the first to the others, and bars or excludes
/// somebody of the family.
fn add_rules(plan: &mut Plan, random: &mut Random, first: u8, open: u8) {
    plan.edges.push(build::base(first, first + 1, open));
    for person in first + 1..first + SIZE - 1 {
        plan.edges.push(build::base(person, person + 1, 0));
    }
    let person = first + random.byte(SIZE as usize);
    if random.percent(50) {
        plan.bars.push(build::bar(&[person], open));
    } else {
        plan.statuses.push(build::status(person, open));
    }
}
