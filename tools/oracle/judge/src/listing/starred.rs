//! The cases that document 01 gives in words.

use inputs::build::*;
use inputs::wire::*;

use super::List;

fn add_both(list: &mut List, plan: &Plan, case: &Case) {
    let (plan, case) = (plan.encode(), case.encode());
    list.check(&plan);
    let answer = list.answer(&plan, &case);
    for world in 0..=answer.worlds.min(4) {
        list.show(&plan, &case, world);
    }
}

pub fn add(list: &mut List) {
    for (plan, case) in cases() {
        add_both(list, &plan, &case);
    }
    list.lengths(crate::compare::roomy(
        inputs::vectors::Op::Answer,
        &whole_plan().encode(),
        &whole_case().encode(),
        0,
    ));
    add_both(list, &whole_plan(), &whole_case());
}

fn cases() -> Vec<(Plan, Case)> {
    let three = case(set(&[0, 1, 2]));
    let two = case(set(&[0, 1]));
    let mut cases = vec![
        (plan(), case(1)),
        (Plan { edges: vec![base(0, 1, 0)], ..plan() }, three.clone()),
        (
            Plan {
                nodes: vec![Node::And(vec![]), Node::Or(vec![])],
                edges: vec![base(0, 1, 0), base(2, 3, 1)],
                ..Plan::default()
            },
            case(15),
        ),
    ];
    let chain = Plan { edges: vec![base(0, 1, 0), base(1, 2, 0)], ..plan() };
    cases.push((chain.clone(), three.clone()));
    cases.push((Plan { chain: Some(9), ..chain.clone() }, three.clone()));
    let mut clique = chain.clone();
    clique.edges.push(base(0, 2, 0));
    cases.push((clique, three.clone()));
    cases.push((chain, Case { complete: None, ..three.clone() }));
    cases.extend(conflicts());
    cases.extend(decisions(&two));
    cases.extend(overlaps(&three));
    cases.extend(roles(&two));
    cases.extend(elections(&two));
    cases
}

/// One fact that an edge uses, under all bindings, and a constraint on it.
fn conflicts() -> Vec<(Plan, Case)> {
    let one = Plan {
        facts: vec![None],
        nodes: vec![Node::Fact(0), Node::Not(0), Node::Literal(0)],
        edges: vec![base(0, 1, 0)],
        ..Plan::default()
    };
    let two = case(3);
    let with = |booleans: Vec<Boolean>| Case { booleans, ..two.clone() };
    let mut cases: Vec<(Plan, Case)> = [
        vec![],
        vec![unknown(0, 9)],
        vec![observe(0, &[])],
        vec![observe(0, &[(1, 3)])],
        vec![observe(0, &[(0, 3), (0, 3)])],
        vec![observe(0, &[(1, 3), (1, 4)])],
        vec![observe(0, &[(0, 3), (0, 4)])],
        vec![observe(0, &[(1, 3), (0, 4)])],
    ]
    .into_iter()
    .map(|booleans| (one.clone(), with(booleans)))
    .collect();
    for constraint in 0..3 {
        let case = Case { constraints: vec![constraint], ..two.clone() };
        cases.push((one.clone(), case));
    }
    cases.push((one, Case { constraints: vec![0, 1], ..two }));
    cases
}

fn decisions(two: &Case) -> Vec<(Plan, Case)> {
    let crossing = |decision: u8| Plan {
        edges: vec![combination(0, 1, 0)],
        cuts: vec![Cut { decisions: Some(vec![(0, decision)]), ..cut(&[0], 0) }],
        ..plan()
    };
    let undecided = Plan { cuts: vec![cut(&[0], 0)], ..crossing(BLOCKED) };
    let mut plans = vec![undecided];
    plans.extend([BLOCKED, OVERRIDES, UNRESOLVED].map(crossing));
    plans.into_iter().map(|plan| (plan, two.clone())).collect()
}

fn overlaps(three: &Case) -> Vec<(Plan, Case)> {
    let cuts = |first: Option<Vec<u8>>, second: Option<Vec<u8>>| Plan {
        cuts: vec![
            Cut { precedes: first, ..cut(&[0, 1], 0) },
            Cut { precedes: second, citation: 8, ..cut(&[1, 2], 0) },
        ],
        ..plan()
    };
    let plans = [
        cuts(None, None),
        cuts(Some(vec![1]), None),
        cuts(None, Some(vec![0])),
        cuts(Some(vec![1]), Some(vec![0])),
    ];
    plans.into_iter().map(|plan| (plan, three.clone())).collect()
}

fn roles(two: &Case) -> Vec<(Plan, Case)> {
    let attached = Plan { attachments: vec![attachment(&[0], 1, 0)], ..plan() };
    let with = |bars: Vec<Bar>, statuses: Vec<Status>| Plan { bars, statuses, ..attached.clone() };
    let plans = [
        with(vec![bar(&[0], 0)], vec![]),
        with(vec![bar(&[0, 1], 0)], vec![]),
        with(vec![bar(&[0, 1], 0)], vec![status(0, 0)]),
        Plan { bars: vec![bar(&[0], 0)], statuses: vec![status(0, 0)], ..plan() },
        Plan { bars: vec![bar(&[0], 0)], edges: vec![base(0, 1, 0)], ..plan() },
        Plan { statuses: vec![status(0, 0)], edges: vec![base(0, 1, 0)], ..plan() },
    ];
    plans.into_iter().map(|plan| (plan, two.clone())).collect()
}

/// Every policy, with no record, an empty one, an explicit unknown and an
/// observation; the rule bound or not.
fn elections(two: &Case) -> Vec<(Plan, Case)> {
    let mut cases = Vec::new();
    for policy in 0..3 {
        let election = Some(Election { fact: 0, actor: 7, policy, citation: 40 });
        for condition in 0..2 {
            let plan = Plan {
                facts: vec![None],
                nodes: vec![Node::Fact(0), Node::Literal(1)],
                cuts: vec![Cut { election, ..cut(&[0], condition) }],
                attachments: vec![Attachment {
                    election,
                    actor: 7,
                    ..attachment(&[0], 1, condition)
                }],
                ..Plan::default()
            };
            for booleans in
                [vec![], vec![observe(0, &[])], vec![unknown(0, 5)], vec![observe(0, &[(1, 6)])]]
            {
                cases.push((plan.clone(), Case { booleans, ..two.clone() }));
            }
        }
    }
    cases
}
