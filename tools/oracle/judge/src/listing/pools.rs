//! Lists of calls that pool amounts by unit.

use inputs::amounts;
use inputs::build::*;
use inputs::generate::{self, DENSE, TINY};
use inputs::mutate;
use inputs::pool_vectors::{PoolCall, PoolExpected, PoolVector};
use inputs::random::Random;
use inputs::vectors::{Call, Op};
use inputs::wire::*;

use super::random::SMALLEST;
use super::{List, fit, source};
use crate::compare::roomy;
use crate::sides::model_pools;

/// The list for the repository's own tests.
pub fn fixed(seed: u64) -> List<PoolVector> {
    let mut list = List::default();
    list.section("units, open units, excluded and barred persons, all kinds of lines, by hand");
    add_by_hand(&mut list);
    list.section("the order of refusals, in buffers that fit and that do not");
    add_orders(&mut list);
    list.section("64 persons: one unit, pairs, everybody alone, the least and the largest amounts");
    add_whole_rosters(&mut list);
    list.section("lists of all lengths");
    add_lengths(&mut list);
    list.section("random inputs of the compared domain");
    add_random(&mut list, seed, 100);
    list.section("random plans that only document 01 accepts");
    add_outside(&mut list, seed);
    list.section("damaged random inputs");
    add_damaged(&mut list, seed);
    list
}

/// The list of tiny ones.
pub fn sample(seed: u64) -> List<PoolVector> {
    let mut list = List::default();
    list.section("tiny inputs, eight worlds at most");
    add_by_hand(&mut list);
    add_short_lists(&mut list);
    add_tiny(&mut list, seed, 64);
    list
}

impl List<PoolVector> {
    fn pool(&mut self, answer: Call, amounts: Vec<u32>) -> PoolExpected {
        let call = PoolCall { answer, amounts };
        let expected = model_pools(&call);
        let vector = PoolVector { call, expected: expected.clone() };
        self.put(vector, |vector| source(&vector.answer()));
        expected
    }

    /// Into buffers of just the length that the answer needs.
    fn fitted_pool(&mut self, plan: &[u8], case: &[u8], amounts: &[u32]) {
        let answer = fit(roomy(Op::Answer, plan, case, 0));
        self.pool(answer, amounts.to_vec());
    }
}

/// One amount a person, each its own digit.
fn tens(case: &Case) -> Vec<u32> {
    (0..case.roster.count_ones()).map(|at| 10u32.pow(at)).collect()
}

fn add_by_hand(list: &mut List<PoolVector>) {
    let cases = roles().into_iter().chain(kinds()).chain(orders_of_units());
    for (plan, case) in cases {
        list.fitted_pool(&plan.encode(), &case.encode(), &tens(&case));
    }
    let (plan, case) = whole();
    list.fitted_pool(&plan.encode(), &case.encode(), &tens(&case));
    list.fitted_pool(&plan.encode(), &case.encode(), &[0; 4]);
    list.fitted_pool(&plan.encode(), &case.encode(), &[u32::MAX; 4]);
}

/// Node 0 is true, node 1 false, node 2 a fact of which nothing is known.
pub(super) fn asked() -> Plan {
    let nodes = vec![Node::Literal(1), Node::Literal(0), Node::Fact(0)];
    Plan { facts: vec![None], nodes, ..Plan::default() }
}

/// A unit with an open role, one excluded, one barred.
pub(super) fn whole() -> (Plan, Case) {
    let plan = Plan {
        edges: vec![base(0, 1, 0)],
        statuses: vec![status(0, 2), status(2, 0)],
        bars: vec![bar(&[3], 0)],
        ..asked()
    };
    (plan, case(15))
}

/// Of two in a unit: members, excluded or barred, for certain or perhaps, and a third beside them.
fn roles() -> Vec<(Plan, Case)> {
    let mut cases = Vec::new();
    for statuses in [
        vec![],
        vec![status(0, 0)],
        vec![status(0, 0), status(1, 0)],
        vec![status(0, 2)],
        vec![status(0, 2), status(1, 0)],
        vec![status(0, 2), status(1, 2)],
        vec![status(0, 1), status(2, 0)],
    ] {
        for bars in [vec![], vec![bar(&[0, 1], 0)], vec![bar(&[1], 2)]] {
            let (edges, statuses) = (vec![base(0, 1, 0)], statuses.clone());
            cases.push((Plan { edges, statuses, bars, ..asked() }, case(7)));
        }
    }
    cases.push((Plan { statuses: vec![status(0, 0)], ..asked() }, case(1)));
    cases.push((Plan { bars: vec![bar(&[0], 0)], ..asked() }, case(1)));
    cases
}

/// Kinds 1, 3, 4, 5 and 6, all beside a person of kind 0 but the last two.
pub(super) fn kinds() -> Vec<(Plan, Case)> {
    let perhaps = Plan { edges: vec![base(0, 1, 2)], ..asked() };
    let cuts = vec![cut(&[0, 1], 0), cut(&[1, 2], 0)];
    let never = Case { constraints: vec![1], ..case(7) };
    let incomplete = Case { complete: None, ..case(7) };
    vec![
        (perhaps.clone(), case(7)),
        (Plan { cuts, ..asked() }, case(15)),
        (Plan { edges: vec![base(0, 1, 0), base(1, 2, 0)], ..asked() }, case(15)),
        (perhaps.clone(), incomplete),
        (perhaps, never),
    ]
}

/// The lowest person decides, not the mask's number.
pub(super) fn orders_of_units() -> Vec<(Plan, Case)> {
    let with = |edges: Vec<Edge>| Plan { edges, ..asked() };
    vec![
        (with(vec![base(0, 3, 0)]), case(15)),
        (with(vec![base(1, 63, 0), base(0, 5, 0)]), case(set(&[0, 1, 5, 40, 63]))),
        (with(vec![base(62, 63, 0)]), case(set(&[9, 62, 63]))),
    ]
}

/// What a case may be turned away for, and nothing first.
pub(super) fn faults() -> [fn(&mut Case); 10] {
    [
        |_| {},
        |case| case.constraints = vec![1],
        |case| case.families = vec![Family { number: 3, scope: Some(1), complete: None }; 2],
        |case| case.booleans = vec![observe(0, &[]), observe(0, &[])],
        |case| {
            let observations = Some(vec![(1, 1)]);
            case.booleans = vec![Boolean { observations, ..unknown(0, 1) }];
        },
        |case| case.most_worlds = 1,
        |case| case.segment_complete = false,
        |case| case.relation = 1,
        |case| case.roster = 3,
        |case| case.constraints = vec![200],
    ]
}

/// One fault or none, a complete roster or not, a list that is right or one short, buffers that fit or are a byte short.
fn add_orders(list: &mut List<PoolVector>) {
    let plan = Plan { edges: vec![base(0, 1, 0)], statuses: vec![status(2, 2)], ..asked() };
    for fault in faults() {
        for complete in [Some(0), None] {
            let mut case = Case { complete, ..case(7) };
            fault(&mut case);
            add_rooms(list, &plan.encode(), &case.encode());
        }
    }
}

/// Three lines and two events.
fn add_rooms(list: &mut List<PoolVector>, plan: &[u8], case: &[u8]) {
    for (lines_len, events_len) in [(87, 24), (86, 24), (87, 23), (86, 0)] {
        for amounts in [&[1, 10, 100][..], &[1, 10]] {
            let answer = Call { lines_len, events_len, ..roomy(Op::Answer, plan, case, 0) };
            list.pool(answer, amounts.to_vec());
        }
    }
}

fn add_whole_rosters(list: &mut List<PoolVector>) {
    let chain = (0..63).map(|person| base(person, person + 1, 0)).collect();
    let pairs: Vec<Edge> = (0..32).map(|pair| base(2 * pair, 2 * pair + 1, 0)).collect();
    let perhaps = (0..32).map(|pair| status(2 * pair, 2)).collect();
    let excluded = (0..32).map(|pair| status(2 * pair, 0)).collect();
    let plans = [
        Plan { edges: chain, chain: Some(9), ..asked() },
        asked(),
        Plan { edges: pairs.clone(), statuses: perhaps, ..asked() },
        Plan { edges: pairs, statuses: excluded, ..asked() },
    ];
    let powers = (0..64).map(|at| 1u32 << (at % 32)).collect();
    let lists: [Vec<u32>; 3] = [vec![0; 64], vec![u32::MAX; 64], powers];
    for plan in plans {
        for amounts in &lists {
            list.fitted_pool(&plan.encode(), &case(u64::MAX).encode(), amounts);
        }
    }
    let incomplete = Case { complete: None, ..case(u64::MAX) };
    list.fitted_pool(&asked().encode(), &incomplete.encode(), &lists[1]);
}

fn add_lengths(list: &mut List<PoolVector>) {
    let plan = plan().encode();
    for persons in [1, 2, 7, 63, 64] {
        let case = case(u64::MAX >> (64 - persons)).encode();
        for length in [0, 1, persons - 1, persons, persons + 1, 2 * persons, 64, 65] {
            list.fitted_pool(&plan, &case, &vec![7; length]);
        }
    }
}

/// Amounts for a person each, or a list of another length now and then.
fn some_amounts(random: &mut Random, case: &Case) -> Vec<u32> {
    let length = amounts::length(random, case.roster.count_ones() as usize);
    amounts::list(random, length)
}

/// Units that are open are taken wherever they are met, other inputs now and then; few worlds.
fn add_random(list: &mut List<PoolVector>, seed: u64, count: usize) {
    let last = list.vectors.len() + count;
    let mut number = 0;
    while list.vectors.len() < last {
        number += 1;
        let random = &mut Random::stream(seed ^ 6, number);
        let size = if number % 3 == 0 { DENSE } else { TINY };
        let generate::Input { plan, case } = generate::input(random, size);
        let answer = fit(roomy(Op::Answer, &plan.encode(), &case.encode(), 0));
        let call = PoolCall { answer, amounts: some_amounts(random, &case) };
        let found = model_pools(&call);
        let open = found.units.iter().any(|&(_, _, open)| open);
        let wanted = open || random.percent(if found.units.is_empty() { 10 } else { 25 });
        if wanted && found.answer.worlds <= 16 {
            list.pool(call.answer, call.amounts);
        }
    }
}

fn add_outside(list: &mut List<PoolVector>, seed: u64) {
    for number in 0..40 {
        let random = &mut Random::stream(seed ^ 7, number);
        let mut input = generate::input(random, TINY);
        generate::loosen(random, &mut input.plan);
        let amounts = some_amounts(random, &input.case);
        list.fitted_pool(&input.plan.encode(), &input.case.encode(), &amounts);
    }
}

fn add_damaged(list: &mut List<PoolVector>, seed: u64) {
    for number in 0..60 {
        let random = &mut Random::stream(seed ^ 8, number);
        let input = generate::input(random, TINY);
        let (mut plan, mut case) = (input.plan.encode(), input.case.encode());
        match number % 4 {
            0 => plan = mutate::bytes(random, &plan),
            1 => case = mutate::bytes(random, &case),
            2 => plan = mutate::records(random, &input.plan.records()),
            _ => case = mutate::records(random, &input.case.records()),
        }
        let lines_len = random.pick(&[0, 58, 116, 300]);
        let events_len = random.pick(&[0, 24, 240]);
        let amounts = some_amounts(random, &input.case);
        let answer = Call { lines_len, events_len, ..roomy(Op::Answer, &plan, &case, 0) };
        list.pool(answer, amounts);
    }
}

/// 15 of complete, incomplete and inconsistent rosters, 13 before it, 12 before that.
fn add_short_lists(list: &mut List<PoolVector>) {
    let plan = Plan { edges: vec![base(0, 1, 0)], ..asked() }.encode();
    for (complete, constraints) in [(Some(0), vec![]), (None, vec![]), (Some(0), vec![1])] {
        let case = Case { complete, constraints, ..case(7) }.encode();
        for (lines_len, events_len) in [(87, 12), (87, 0), (86, 0)] {
            let answer = Call { lines_len, events_len, ..roomy(Op::Answer, &plan, &case, 0) };
            list.pool(answer, vec![5]);
        }
    }
}

/// Random ones until the list is so long.
fn add_tiny(list: &mut List<PoolVector>, seed: u64, length: usize) {
    let mut number = 0;
    while list.vectors.len() < length {
        number += 1;
        let random = &mut Random::stream(seed ^ 9, number);
        let input = generate::input(random, SMALLEST);
        let answer = fit(roomy(Op::Answer, &input.plan.encode(), &input.case.encode(), 0));
        let persons = input.case.roster.count_ones() as usize;
        let call = PoolCall { answer, amounts: amounts::list(random, persons) };
        let found = model_pools(&call);
        if (2..=8).contains(&found.answer.worlds) && !found.units.is_empty() {
            list.pool(call.answer, call.amounts);
        }
    }
}
