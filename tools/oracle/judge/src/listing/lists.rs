//! Lists of calls of the lister.

use inputs::build::*;
use inputs::generate::{self, DENSE, Input, TINY};
use inputs::list_vectors::ListVector;
use inputs::random::Random;
use inputs::vectors::{Call, Op, Vector};
use inputs::wire::*;
use inputs::{households, mutate};
use model::Citing;

use super::pools::{asked, faults, kinds, orders_of_units, whole};
use super::random::SMALLEST;
use super::{List, fit, source};
use crate::compare::roomy;
use crate::sides::{model_answers, model_lists};

/// The list for the repository's own tests.
pub fn fixed(seed: u64) -> List<ListVector> {
    let mut list = List::default();
    list.section("one, two and three in a block, in every pair of kinds and roles, by hand");
    add_blocks(&mut list);
    list.section("several blocks, all kinds of lines, by hand");
    add_several(&mut list);
    list.section("64 persons: one block, pairs, everybody alone, excluded, barred or perhaps so");
    add_whole_rosters(&mut list);
    list.section("refusals of a plan, each sort");
    broken_plans().iter().for_each(|plan| list.fitted_list(plan, &case(7).encode()));
    list.section("the order of refusals of a case, in buffers that fit and that do not");
    add_orders(&mut list);
    list.section("buffers of no length, one short, exact, long, and the lister's own");
    add_lengths(&mut list);
    list.section("random inputs with many excluded and barred persons");
    list.random(seed ^ 11, 70, MIDDLING, |random, _| households::input(random));
    list.section("random inputs of the compared domain");
    list.random(seed ^ 12, 40, MIDDLING, |random, number| {
        generate::input(random, if number % 3 == 0 { DENSE } else { TINY })
    });
    list.section("random plans that only document 01 accepts");
    list.random(seed ^ 13, 20, MIDDLING, |random, _| loosened(random));
    list.section("damaged random inputs");
    add_damaged(&mut list, seed ^ 14);
    list
}

/// The list of short ones.
pub fn sample(seed: u64) -> List<ListVector> {
    let mut list = List::default();
    list.section("short inputs, eight worlds at most");
    SORTS.iter().for_each(|&sort| list.block(&[sort]));
    for (first, second) in [(1, 1), (1, 2), (2, 1), (1, 3), (3, 1), (2, 3), (0, 1), (1, 5)] {
        list.block(&[SORTS[first], SORTS[second]]);
    }
    kinds().iter().chain([&whole()]).for_each(|(plan, case)| list.list(plan, case));
    broken_plans().iter().step_by(2).for_each(|plan| list.fitted_list(plan, &case(7).encode()));
    for fault in faults() {
        let mut case = case(7);
        fault(&mut case);
        list.list(&asked(), &case);
    }
    let plan = Plan { edges: vec![base(0, 1, 0)], ..asked() }.encode();
    list.list_in(&plan, &case(7).encode(), 86, 12);
    list.list_in(&plan, &case(7).encode(), 87, 11);
    list.random(seed ^ 15, 15, SHORT, |random, _| households::input(random));
    let left = 64 - list.vectors.len();
    list.random(seed ^ 16, left, SHORT, |random, _| generate::input(random, SMALLEST));
    list
}

/// The most bytes of a plan, and the most worlds.
type Most = (usize, u64);
const MIDDLING: Most = (240, 16);
const SHORT: Most = (80, 8);

impl List<ListVector> {
    fn put_list(&mut self, call: Call) {
        let text = model_lists(&call);
        self.put(ListVector { call, text }, |vector| {
            let expected = model_answers(Citing::ByBlock, &vector.call);
            source(&Vector { call: vector.call.clone(), expected })
        });
    }

    fn list_in(&mut self, plan: &[u8], case: &[u8], lines_len: usize, events_len: usize) {
        self.put_list(Call { lines_len, events_len, ..roomy(Op::Answer, plan, case, 0) });
    }

    /// In buffers of just the length that the answer needs.
    fn fitted_list(&mut self, plan: &[u8], case: &[u8]) {
        self.put_list(fit(roomy(Op::Answer, plan, case, 0)));
    }

    fn list(&mut self, plan: &Plan, case: &Case) {
        self.fitted_list(&plan.encode(), &case.encode());
    }

    /// Persons of these sorts in one block.
    fn block(&mut self, sorts: &[Sort]) {
        let last = sorts.len() as u8 - 1;
        let edges = (0..last).map(|person| base(person, person + 1, 0)).collect();
        let mut plan = Plan { edges, chain: Some(9), ..asked() };
        (0..).zip(sorts).for_each(|(person, sort)| sort(&mut plan, person));
        self.list(&plan, &case(u64::MAX >> (63 - last)));
    }

    /// So many that are small enough.
    fn random(
        &mut self,
        seed: u64,
        count: usize,
        (bytes, worlds): Most,
        make: impl Fn(&mut Random, u64) -> Input,
    ) {
        let last = self.vectors.len() + count;
        let mut number = 0;
        while self.vectors.len() < last {
            number += 1;
            let Input { plan, case } = make(&mut Random::stream(seed, number), number);
            let (plan, case) = (plan.encode(), case.encode());
            let call = roomy(Op::Answer, &plan, &case, 0);
            let found = model_answers(Citing::ByBlock, &call);
            if plan.len() <= bytes && found.worlds <= worlds {
                self.put_list(fit(call));
            }
        }
    }
}

/// Makes a person of a plan what a block may hold.
type Sort = fn(&mut Plan, u8);

/// A member, excluded, barred, perhaps excluded, perhaps barred, barred and perhaps excluded: the last three are of kind 2.
const SORTS: [Sort; 6] = [
    |_, _| {},
    |plan, person| plan.statuses.push(status(person, 0)),
    |plan, person| plan.bars.push(bar(&[person], 0)),
    |plan, person| plan.statuses.push(status(person, 2)),
    |plan, person| plan.bars.push(bar(&[person], 2)),
    |plan, person| {
        plan.bars.push(bar(&[person], 0));
        plan.statuses.push(status(person, 2));
    },
];

fn add_blocks(list: &mut List<ListVector>) {
    SORTS.iter().for_each(|&sort| list.block(&[sort]));
    for first in SORTS {
        SORTS.iter().for_each(|&second| list.block(&[first, second]));
    }
    let four = &SORTS[..4];
    for &first in four {
        for &second in four {
            four.iter().for_each(|&third| list.block(&[first, second, third]));
        }
    }
}

fn add_several(list: &mut List<ListVector>) {
    let cases = kinds().into_iter().chain(orders_of_units()).chain([whole()]);
    for (plan, case) in cases {
        list.list(&plan, &case);
        let last = 63 - case.roster.leading_zeros() as u8;
        let statuses = vec![status(last, 0)];
        list.list(&Plan { statuses: statuses.clone(), ..plan.clone() }, &case);
        list.list(&Plan { bars: vec![bar(&[last], 0)], statuses, ..plan }, &case);
    }
    let edges = vec![base(0, 4, 0), base(1, 3, 0)];
    for excluded in [vec![0, 4], vec![1, 3], vec![0, 1, 2], vec![2, 5], vec![0, 1, 2, 3, 4, 5]] {
        let statuses: Vec<Status> = excluded.iter().map(|&person| status(person, 0)).collect();
        let plan = Plan { edges: edges.clone(), statuses, ..asked() };
        list.list(&plan, &case(63));
        list.list(&Plan { bars: vec![bar(&[1, 2], 0)], ..plan.clone() }, &case(63));
        list.list(&Plan { bars: vec![bar(&[3, 5], 2)], ..plan }, &case(63));
    }
    add_moved(list);
}

/// Excluded persons who are attached, cut off, or perhaps so.
fn add_moved(list: &mut List<ListVector>) {
    for condition in 0..3 {
        for excluded in [vec![0], vec![0, 1], vec![0, 2]] {
            let statuses: Vec<Status> = excluded.iter().map(|&person| status(person, 0)).collect();
            let attachments = vec![attachment(&[0], 1, condition)];
            let attached = Plan { attachments, statuses: statuses.clone(), ..asked() };
            list.list(&attached, &case(7));
            let (edges, cuts) = (vec![base(0, 1, 0)], vec![cut(&[0], condition)]);
            list.list(&Plan { edges, cuts, statuses, ..asked() }, &case(7));
        }
    }
}

fn add_whole_rosters(list: &mut List<ListVector>) {
    let chain = (0..63).map(|person| base(person, person + 1, 0)).collect();
    let pairs: Vec<Edge> = (0..32).map(|pair| base(2 * pair, 2 * pair + 1, 0)).collect();
    let all = case(u64::MAX);
    list.list(&Plan { edges: chain, chain: Some(9), ..asked() }, &all);
    for edges in [vec![], pairs] {
        let plan = Plan { edges, ..asked() };
        list.list(&plan, &all);
        for condition in [0, 2] {
            let even: Vec<Status> = (0..32).map(|pair| status(2 * pair, condition)).collect();
            let low = (0..32).map(|person| status(person, condition)).collect();
            let bars = vec![Bar { members: u64::MAX >> 16, ..bar(&[], condition) }];
            list.list(&Plan { statuses: even.clone(), ..plan.clone() }, &all);
            list.list(&Plan { statuses: low, ..plan.clone() }, &all);
            list.list(&Plan { statuses: even, bars, ..plan.clone() }, &all);
        }
    }
    list.list(&asked(), &Case { complete: None, ..all });
}

/// One for each number that a plan may be turned away with, or more.
fn broken_plans() -> Vec<Vec<u8>> {
    let good = Plan { statuses: vec![status(2, 0)], ..asked() }.encode();
    let crossing = vec![combination(0, 1, 0)];
    let twice = Cut { decisions: Some(vec![(0, BLOCKED); 2]), ..cut(&[0], 0) };
    let election = Election { fact: 0, actor: 1, policy: 0, citation: 0 };
    let elected = |policy| Cut { election: Some(Election { policy, ..election }), ..cut(&[0], 2) };
    let plans = [
        Plan { edges: vec![base(0, 1, 0); 65], ..asked() },
        Plan { edges: vec![base(0, 1, 9)], ..asked() },
        Plan { edges: crossing.clone(), cuts: vec![twice], ..asked() },
        Plan { edges: crossing, cuts: vec![cut(&[0], 0)], ..asked() },
        Plan { cuts: vec![elected(0), elected(1)], ..asked() },
    ];
    let mut bytes = vec![vec![], good[..good.len() - 1].to_vec(), [&good[..], &[9]].concat()];
    bytes.push([&good[..], &[8, 3, 0, 0]].concat());
    bytes.push([&good[..], &good].concat());
    bytes.extend(plans.iter().map(Plan::encode));
    bytes
}

/// One fault or none, a complete roster or not, buffers that fit or are a byte short.
fn add_orders(list: &mut List<ListVector>) {
    let plan = Plan { edges: vec![base(0, 1, 0)], statuses: vec![status(2, 2)], ..asked() };
    for fault in faults() {
        for complete in [Some(0), None] {
            let mut case = Case { complete, ..case(7) };
            fault(&mut case);
            let (plan, case) = (plan.encode(), case.encode());
            list.list_in(&plan, &case, 87, 24);
            list.list_in(&plan, &case, 86, 23);
        }
    }
}

fn add_lengths(list: &mut List<ListVector>) {
    let pair = Plan { edges: vec![base(0, 1, 0)], statuses: vec![status(0, 0)], ..asked() };
    for (plan, case) in [whole(), (pair, case(3))] {
        let (plan, case) = (plan.encode(), case.encode());
        let Call { lines_len, events_len, .. } = fit(roomy(Op::Answer, &plan, &case, 0));
        for (lines, events) in [
            (0, 0),
            (0, events_len),
            (lines_len - 1, events_len),
            (lines_len, 0),
            (lines_len, events_len - 1),
            (lines_len, events_len),
            (lines_len + 1, events_len + 11),
            (lines_len + 29, events_len + 12),
            (64 * 29, 4096 * 12),
            (65_536, 65_536),
        ] {
            list.list_in(&plan, &case, lines, events);
        }
    }
}

fn loosened(random: &mut Random) -> Input {
    let mut input = generate::input(random, TINY);
    generate::loosen(random, &mut input.plan);
    input
}

fn add_damaged(list: &mut List<ListVector>, seed: u64) {
    for number in 0..50 {
        let random = &mut Random::stream(seed, number);
        let input = match number % 2 {
            0 => generate::input(random, TINY),
            _ => households::input(random),
        };
        let (mut plan, mut case) = (input.plan.encode(), input.case.encode());
        match number % 4 {
            0 => plan = mutate::bytes(random, &plan),
            1 => case = mutate::bytes(random, &case),
            2 => plan = mutate::records(random, &input.plan.records()),
            _ => case = mutate::records(random, &input.case.records()),
        }
        list.list_in(&plan, &case, random.pick(&[58, 116, 300]), random.pick(&[0, 24, 240]));
    }
}
