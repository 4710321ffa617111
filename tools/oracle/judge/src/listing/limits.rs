//! Every limit of records, lists and values, and the order of refusals.

use inputs::build::*;
use inputs::wire::*;

use super::List;

fn add(list: &mut List, plan: &Plan, case: &Case) {
    let (plan, case) = (plan.encode(), case.encode());
    list.check(&plan);
    list.answer(&plan, &case);
}

/// None, one short of the limit, the limit, one over.
fn around(limit: usize) -> [usize; 4] {
    [0, limit - 1, limit, limit + 1]
}

fn falling(count: usize, node: u8) -> Vec<u8> {
    vec![node; count]
}

fn relation_facts(count: usize) -> Vec<Option<(u8, Vec<u8>)>> {
    (0..count).map(|number| Some(((number / 64) as u8, vec![(number % 64) as u8]))).collect()
}

pub fn add_counts(list: &mut List) {
    add_record_counts(list);
    add_list_counts(list);
    add_case_counts(list);
}

fn add_record_counts(list: &mut List) {
    let two = case(3);
    for count in around(64) {
        add(list, &Plan { facts: vec![None; count], ..plan() }, &two);
        add(list, &Plan { facts: relation_facts(count), ..plan() }, &two);
        add(list, &Plan { edges: vec![base(0, 1, 0); count], ..plan() }, &two);
    }
    for count in around(256) {
        add(list, &Plan { nodes: vec![Node::Literal(1); count], ..Plan::default() }, &two);
    }
    for count in around(16) {
        let cuts = (0..count).map(|person| cut(&[person as u8], 0)).collect();
        add(list, &Plan { cuts, ..plan() }, &case(u64::MAX >> 40));
    }
    for count in around(32) {
        let attachments = (0..count).map(|person| attachment(&[person as u8 + 1], 0, 0)).collect();
        add(list, &Plan { attachments, ..plan() }, &case(u64::MAX >> 30));
        add(list, &Plan { bars: vec![bar(&[0], 0); count], ..plan() }, &two);
        add(list, &Plan { statuses: vec![status(0, 0); count], ..plan() }, &two);
    }
    let heading = plan().records()[0].clone();
    list.check(&[heading.clone(), heading.clone()].concat());
    list.check(&[plan().encode(), heading].concat());
}

fn add_list_counts(list: &mut List) {
    let two = case(3);
    for count in around(4) {
        let facts = vec![Some((1, vec![1; count]))];
        add(
            list,
            &Plan {
                facts,
                nodes: vec![Node::Fact(0)],
                edges: vec![base(0, 1, 0)],
                ..Plan::default()
            },
            &two,
        );
    }
    for count in around(16) {
        let and = vec![Node::Literal(1), Node::And(falling(count, 0))];
        let or = vec![Node::Literal(0), Node::Or(falling(count, 0))];
        for nodes in [and, or] {
            add(list, &Plan { nodes, edges: vec![base(0, 1, 1)], ..Plan::default() }, &two);
        }
        let edge = Edge { defeaters: Some(falling(count, 1)), ..base(0, 1, 0) };
        let nodes = vec![Node::Literal(1), Node::Literal(0)];
        add(list, &Plan { nodes, edges: vec![edge], ..Plan::default() }, &two);
        let lower = Cut { precedes: Some(falling(count, 1)), ..cut(&[0, 1], 0) };
        add(list, &Plan { cuts: vec![lower, cut(&[0], 0)], ..plan() }, &two);
        add_unresolved(list, count, &two);
    }
    for count in around(64) {
        let edges = vec![combination(0, 1, 0); 64];
        let decisions = (0..count).map(|edge| (edge as u8, OVERRIDES)).collect();
        let one = Cut { decisions: Some(decisions), ..cut(&[0], 0) };
        add(list, &Plan { edges, cuts: vec![one], ..plan() }, &two);
    }
}

/// Unresolved decisions in one cut, and spread over two.
fn add_unresolved(list: &mut List, count: usize, two: &Case) {
    let edges = vec![combination(0, 1, 0); 17];
    let decided = |from: usize, to: usize| {
        let said = |edge| {
            if (from..to).contains(&edge) { UNRESOLVED } else { OVERRIDES }
        };
        Some((0..17).map(|edge| (edge as u8, said(edge))).collect())
    };
    let one = Cut { decisions: decided(0, count), ..cut(&[0], 0) };
    let small = Case { most_worlds: 4, ..two.clone() };
    add(list, &Plan { edges: edges.clone(), cuts: vec![one], ..plan() }, &small);
    let first = Cut { decisions: decided(0, count / 2), ..cut(&[0], 0) };
    let second = Cut { decisions: decided(count / 2, count), ..cut(&[1], 0) };
    add(list, &Plan { edges, cuts: vec![first, second], ..plan() }, &small);
}

fn add_case_counts(list: &mut List) {
    let booleans = Plan { facts: vec![None; 64], ..plan() };
    let relation =
        Plan { facts: vec![Some((0, vec![0]))], nodes: vec![Node::Fact(0)], ..Plan::default() };
    let family = |number| Family { number, scope: Some(1), complete: Some(0) };
    for count in around(16) {
        let families = (0..count).map(|number| family(number as u8)).collect();
        add(list, &plan(), &Case { families, ..case(3) });
        add(list, &plan(), &Case { constraints: vec![0; count], ..case(3) });
        let observations: Vec<(u8, u8)> = (0..count).map(|number| (1, number as u8)).collect();
        let used =
            Plan { nodes: vec![Node::Fact(0)], statuses: vec![status(0, 0)], ..booleans.clone() };
        add(list, &used, &Case { booleans: vec![observe(0, &observations)], ..case(3) });
    }
    for count in around(64) {
        let records = (0..count).map(|fact| observe(fact as u8 % 64, &[(1, 0)])).collect();
        add(list, &booleans, &Case { booleans: records, ..case(3) });
    }
    for count in around(256) {
        let relations = vec![Relation { fact: 0, value: 1, evidence: 0 }; count];
        add(list, &relation, &Case { families: vec![family(0)], relations, ..case(3) });
    }
    let heading = case(3).encode();
    list.answer(&plan().encode(), &[heading.clone(), heading.clone()].concat());
    let constrained = Case { constraints: vec![0], ..case(3) }.encode();
    list.answer(&plan().encode(), &[constrained, heading].concat());
}

/// Values at both ends of their ranges and one beyond.
pub fn add_values(list: &mut List) {
    let wide = case(u64::MAX);
    for number in [0, 62, 63, 64, 255] {
        let shifted = 1u64.checked_shl(u32::from(number)).unwrap_or(1);
        let member = case(1 | 1 << 62 | 1 << 61 | shifted);
        add(list, &Plan { chain: Some(number), ..plan() }, &case(3));
        add(list, &Plan { edges: vec![base(61, number, 0)], ..plan() }, &member);
        add(list, &Plan { edges: vec![base(number, 61, 0)], ..plan() }, &member);
        add(
            list,
            &Plan { edges: vec![Edge { citation: number, ..base(0, 1, 0) }], ..plan() },
            &case(3),
        );
        add(
            list,
            &Plan { cuts: vec![Cut { citation: number, ..cut(&[0], 0) }], ..plan() },
            &case(3),
        );
        add(list, &Plan { attachments: vec![attachment(&[61], number, 0)], ..plan() }, &member);
        add(
            list,
            &Plan { bars: vec![Bar { citation: number, ..bar(&[0], 0) }], ..plan() },
            &case(3),
        );
        add(list, &Plan { statuses: vec![status(number, 0)], ..plan() }, &member);
        let facts = vec![Some((255, vec![number]))];
        let nodes = vec![Node::Fact(0)];
        add(list, &Plan { facts, nodes, statuses: vec![status(0, 0)], ..Plan::default() }, &member);
        add(list, &plan(), &Case { complete: Some(number), ..case(3) });
    }
    for number in [0, 1, 2, 3, 255] {
        add_elections(list, number);
        add(
            list,
            &Plan {
                nodes: vec![Node::Literal(number)],
                bars: vec![bar(&[0], 0)],
                ..Plan::default()
            },
            &case(3),
        );
        let decided = Cut { decisions: Some(vec![(0, number)]), ..cut(&[0], 0) };
        add(
            list,
            &Plan { edges: vec![combination(0, 1, 0)], cuts: vec![decided], ..plan() },
            &case(3),
        );
        let one = Plan {
            facts: vec![None],
            nodes: vec![Node::Fact(0)],
            bars: vec![bar(&[0], 0)],
            ..Plan::default()
        };
        add(list, &one, &Case { booleans: vec![observe(0, &[(number, 0)])], ..case(3) });
        add(list, &one, &Case { booleans: vec![observe(number, &[(1, 63)])], ..case(3) });
        add(list, &one, &Case { booleans: vec![unknown(0, number)], ..case(3) });
    }
    for evidence in [63, 64] {
        let one = Plan { facts: vec![None], ..plan() };
        add(list, &one, &Case { booleans: vec![unknown(0, evidence)], ..case(3) });
        add(list, &one, &Case { booleans: vec![observe(0, &[(1, evidence)])], ..case(3) });
    }
    for most_worlds in [0, 1, 4095, 4096, 4097, 65535] {
        add(list, &plan(), &Case { most_worlds, ..case(3) });
    }
    add(list, &plan(), &wide);
}

fn add_elections(list: &mut List, number: u8) {
    let plan = |election: Election| Plan {
        facts: vec![None, None],
        nodes: vec![Node::Fact(0)],
        cuts: vec![Cut { election: Some(election), ..cut(&[0], 0) }],
        ..Plan::default()
    };
    let election = Election { fact: 0, actor: 1, policy: 2, citation: 0 };
    add(list, &plan(Election { fact: number, ..election }), &case(3));
    add(list, &plan(Election { actor: number, ..election }), &case(3));
    add(list, &plan(Election { policy: number, ..election }), &case(3));
    add(list, &plan(Election { citation: number, ..election }), &case(3));
}

/// Every prefix of a plan and of a case.
pub fn add_prefixes(list: &mut List) {
    let (plan, case) = (whole_plan().encode(), whole_case().encode());
    for end in 0..plan.len() {
        list.check(&plan[..end]);
    }
    for end in 0..=case.len() {
        list.answer(&plan, &case[..end]);
    }
    for end in (0..case.len()).step_by(7) {
        list.show(&plan, &case[..end], 0);
        list.answer(&plan[..end], &case);
    }
}

/// Every byte changed, and every bit of every bit map.
pub fn add_changes(list: &mut List) {
    let (plan, case) = (whole_plan(), whole_case());
    for (at, bytes) in changed(&plan.encode()) {
        if at % 2 == 0 || bytes[at] != 255 {
            list.check(&bytes);
        }
        if at % 7 == 0 {
            list.answer(&bytes, &case.encode());
        }
    }
    for (_, bytes) in changed(&case.encode()) {
        list.answer(&plan.encode(), &bytes);
    }
    for bytes in bit_maps(&plan.records()) {
        list.check(&bytes);
    }
    for bytes in bit_maps(&case.records()) {
        list.answer(&plan.encode(), &bytes);
    }
}

fn changed(bytes: &[u8]) -> Vec<(usize, Vec<u8>)> {
    let mut all = Vec::new();
    for at in 0..bytes.len() {
        for value in [bytes[at].wrapping_add(1), 255] {
            let mut copy = bytes.to_vec();
            copy[at] = value;
            all.push((at, copy));
        }
    }
    all
}

/// Records with one bit more or less, and no field moved for it.
fn bit_maps(records: &[Vec<u8>]) -> Vec<Vec<u8>> {
    let mut all = Vec::new();
    for at in 0..records.len() {
        for bit in 0..8 {
            let mut copy = records.to_vec();
            copy[at][1] ^= 1 << bit;
            all.push(copy.concat());
        }
    }
    all
}

/// Two refusals in one input: the earlier of the order stands.
pub fn add_orders(list: &mut List) {
    add_plan_orders(list);
    add_case_orders(list);
}

fn add_plan_orders(list: &mut List) {
    let (plan, case) = (whole_plan(), whole_case().encode());
    let records = plan.records();
    // A first record that is no heading, alone and with faults of its own.
    for at in 1..records.len() {
        list.check(&records[at]);
        list.check(&records[at][..records[at].len() - 1]);
        list.check(&[records[at].clone(), records[0].clone()].concat());
    }
    // Each record left out, repeated, and moved to the end.
    for at in 0..records.len() {
        let mut left_out = records.clone();
        let taken = left_out.remove(at);
        list.check(&left_out.concat());
        list.answer(&left_out.concat(), &case);
        let mut repeated = records.clone();
        repeated.insert(at, taken.clone());
        list.check(&repeated.concat());
        left_out.push(taken);
        list.check(&left_out.concat());
    }
    add_missing_fields(list);
    add_elections_at_odds(list);
    add_crossings(list);
}

/// Records whose bit maps lack required fields, properly laid out.
fn add_missing_fields(list: &mut List) {
    let heading = [1u8, 1, 0];
    let short: [&[u8]; 14] = [
        &[1, 0],
        &[2, 1, 0],
        &[2, 2, 0],
        &[3, 0],
        &[3, 3, 1, 0],
        &[3, 3, 2, 0],
        &[3, 6, 0, 0],
        &[4, 0x0e, 0, 0, 0],
        &[4, 0x07, 0, 0, 0],
        &[5, 0x06, 0, 0],
        &[5, 0x03, 1, 0, 0, 0, 0, 0, 0, 0, 0],
        &[6, 0x0f, 1, 0, 0, 0, 0, 0, 0, 0, 1, 0, 0],
        &[7, 0x06, 0, 0],
        &[8, 0x03, 0, 0],
    ];
    for record in short {
        list.check(record);
        list.check(&[&heading[..], record].concat());
    }
    let missing: [&[u8]; 9] = [
        &[1, 0x5e, 1, 1, 3, 0, 0, 0, 0, 0, 0, 0, 0, 1],
        &[1, 0x4f, 0, 1, 1, 0, 1],
        &[1, 0x1f, 0, 1, 1, 3, 0, 0, 0, 0, 0, 0, 0],
        &[2, 0x06, 1, 1],
        &[3, 0x06, 1, 0],
        &[4, 0x06, 1, 1],
        &[4, 0x05, 0, 1],
        &[4, 0x03, 0, 1],
        &[5, 0],
    ];
    let (plan, front) = (whole_plan().encode(), whole_case().records()[0].clone());
    for record in missing {
        list.answer(&plan, record);
        list.answer(&plan, &[&front[..], record].concat());
    }
}

fn add_elections_at_odds(list: &mut List) {
    let election = Election { fact: 0, actor: 1, policy: 0, citation: 0 };
    let others = [
        Election { fact: 1, ..election },
        Election { actor: 2, ..election },
        Election { policy: 1, ..election },
        Election { citation: 1, ..election },
        election,
    ];
    for other in others {
        let first = Cut { election: Some(election), ..cut(&[0], 1) };
        let second = Cut { election: Some(other), ..cut(&[0], 1) };
        let moved = Attachment { election: Some(other), ..attachment(&[0], 1, 1) };
        let nodes = vec![Node::Fact(0), Node::Fact(1), Node::And(vec![0, 1])];
        let plan = Plan { facts: vec![None, None], nodes, cuts: vec![first], ..Plan::default() };
        add(list, &Plan { attachments: vec![moved.clone()], ..plan.clone() }, &case(3));
        let mut cuts = plan.cuts.clone();
        cuts.push(second);
        add(list, &Plan { cuts, attachments: vec![moved], ..plan }, &case(3));
    }
}

/// Refusal 6 names the first cut; 4 comes before it and 7 after.
fn add_crossings(list: &mut List) {
    let edges = vec![combination(0, 1, 0), combination(1, 2, 0)];
    let decided = Cut { decisions: Some(vec![(0, BLOCKED), (1, OVERRIDES)]), ..cut(&[1], 0) };
    let half = Cut { decisions: Some(vec![(0, BLOCKED)]), ..cut(&[1], 0) };
    for cuts in [
        vec![decided.clone(), half.clone()],
        vec![half.clone(), cut(&[1], 0)],
        vec![cut(&[0, 1, 2], 0), half.clone()],
        vec![half, Cut { condition: 9, ..decided.clone() }],
        vec![Cut { decisions: Some(vec![(0, BLOCKED), (0, BLOCKED)]), ..decided.clone() }],
        vec![Cut { decisions: Some(vec![(9, BLOCKED), (9, OVERRIDES)]), ..decided }],
    ] {
        add(list, &Plan { edges: edges.clone(), cuts, ..plan() }, &case(7));
    }
}

/// A case with two faults at once.
fn add_case_orders(list: &mut List) {
    let plan = whole_plan().encode();
    let good = whole_case();
    let faults: Vec<fn(&mut Case)> = vec![
        |case| case.constraints.push(200),
        |case| case.segment_complete = false,
        |case| case.relation = 6,
        |case| case.scope = None,
        |case| case.segment = Some(0),
        |case| case.roster = 7,
        |case| case.roster = 0,
        |case| case.complete = None,
        |case| case.families.push(case.families[0].clone()),
        |case| case.booleans.push(observe(0, &[])),
        |case| case.booleans[0].observations = Some(vec![(1, 1)]),
        |case| case.most_worlds = 1,
        |case| case.relations[0].fact = 0,
        |case| case.booleans[0].fact = 2,
        |case| case.families.truncate(1),
        |case| case.constraints = vec![0, 6, 4],
    ];
    for first in 0..faults.len() {
        for second in first..faults.len() {
            let mut case = good.clone();
            faults[first](&mut case);
            faults[second](&mut case);
            list.answer(&plan, &case.encode());
            if first == second {
                list.show(&plan, &case.encode(), 0);
            }
        }
    }
}
