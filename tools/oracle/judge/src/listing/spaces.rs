//! Numbers of worlds up to and beyond 2^64, and large rosters.

use inputs::build::*;
use inputs::vectors::Op;
use inputs::wire::*;

use super::List;
use crate::compare::roomy;

/// A status on every free fact, and unresolved decisions beside them.
fn free(facts: usize, decisions: usize) -> Plan {
    let edges: Vec<Edge> = (0..decisions).map(|_| combination(0, 1, 0)).collect();
    let decided = (0..decisions).map(|edge| (edge as u8, UNRESOLVED)).collect();
    let mut nodes = vec![Node::Literal(1)];
    nodes.extend((0..facts).map(|fact| Node::Fact(fact as u8)));
    let groups: Vec<Node> = (1..=facts as u8)
        .collect::<Vec<u8>>()
        .chunks(16)
        .map(|group| Node::Or(group.to_vec()))
        .collect();
    let statuses = (0..groups.len()).map(|group| status(0, (nodes.len() + group) as u8)).collect();
    nodes.extend(groups);
    let cuts = if decisions == 0 {
        vec![]
    } else {
        vec![Cut { decisions: Some(decided), ..cut(&[0], 0) }]
    };
    Plan { facts: vec![None; facts], nodes, edges, cuts, statuses, ..Plan::default() }
}

pub fn add(list: &mut List) {
    add_counts(list);
    add_rosters(list);
}

fn add_counts(list: &mut List) {
    for (facts, decisions, most) in [
        (0, 0, 0),
        (0, 0, 1),
        (1, 0, 1),
        (1, 0, 2),
        (2, 1, 7),
        (2, 1, 8),
        (11, 0, 2048),
        (12, 0, 4095),
        (12, 0, 4096),
        (6, 6, 4096),
        (13, 0, 4096),
        (0, 13, 4096),
        (0, 16, 4096),
        (31, 0, 4096),
        (32, 0, 4096),
        (63, 0, 4096),
        (62, 1, 0),
        (64, 0, 4096),
        (63, 1, 4096),
        (64, 16, 0),
        (64, 16, 4096),
    ] {
        let plan = free(facts, decisions).encode();
        let case = Case { most_worlds: most, ..case(3) }.encode();
        list.check(&plan);
        let worlds = list.answer(&plan, &case).worlds;
        for world in [0, 1, worlds.saturating_sub(1), worlds, u64::MAX] {
            list.show(&plan, &case, world);
        }
    }
    add_conflicts(list);
}

/// Conflicts of one candidate multiply nothing; constraints come after 11.
fn add_conflicts(list: &mut List) {
    let plan = free(14, 0).encode();
    for agreeing in [1, 2, 3] {
        let booleans = (0..agreeing).map(|fact| observe(fact, &[(1, 1), (1, 2)])).collect();
        let case = Case { booleans, ..case(3) };
        list.answer(&plan, &case.encode());
        let constrained = Case { constraints: vec![1, 2, 3, 4, 5, 6, 7, 8, 9, 10], ..case };
        list.answer(&plan, &constrained.encode());
    }
}

fn add_rosters(list: &mut List) {
    let chain: Vec<Edge> = (0..63).map(|person| base(person, person + 1, 0)).collect();
    let plans = [
        plan(),
        Plan { edges: chain.clone(), ..plan() },
        Plan { edges: chain, chain: Some(63), ..plan() },
        Plan { bars: vec![bar(&[0, 63], 0)], statuses: vec![status(63, 0)], ..plan() },
        Plan { attachments: vec![attachment(&[0], 63, 0)], ..plan() },
        Plan { cuts: vec![cut(&[63], 0), cut(&[0, 63], 0)], ..plan() },
    ];
    for plan in plans {
        for roster in [u64::MAX, 1 << 63 | 1, 1 << 63, 1, 0] {
            let (plan, case) = (plan.encode(), case(roster).encode());
            list.answer(&plan, &case);
            list.show(&plan, &case, 0);
        }
        list.lengths(roomy(Op::Answer, &plan.encode(), &case(1 << 63 | 1).encode(), 0));
    }
}
