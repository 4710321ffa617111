//! Pools that are worked out by hand: units, their cents, their marks, what is unplaced, and what is turned away.

use inputs::build::*;
use inputs::wire::*;
use model::{Outcome, PoolOutcome, Unit};

const LINE: usize = 29;
const EVENT: usize = 12;

/// Node 0 is true, node 1 false, node 2 a fact of which nothing is known.
fn asked() -> Plan {
    let nodes = vec![Node::Literal(1), Node::Literal(0), Node::Fact(0)];
    Plan { facts: vec![None], nodes, ..Plan::default() }
}

/// With room for so many lines and events; the buffers are dirty before, and zero after a refusal.
fn pool_in(plan: &Plan, case: &Case, amounts: &[u32], lines: usize, events: usize) -> PoolOutcome {
    let (mut lines, mut events) = (vec![0xa5; lines * LINE], vec![0xa5; events * EVENT]);
    let found = model::pool(&plan.encode(), &case.encode(), amounts, &mut lines, &mut events);
    if found.answer.refusal != 0 {
        assert!(lines.iter().chain(&events).all(|&byte| byte == 0));
        assert_eq!((found.units.len(), found.unplaced), (0, 0));
    }
    found
}

fn pool(plan: &Plan, case: &Case, amounts: &[u32]) -> PoolOutcome {
    pool_in(plan, case, amounts, 64, 4096)
}

/// The units, each as its persons, cents and mark, and what is unplaced.
fn expect(plan: &Plan, case: &Case, amounts: &[u32], units: &[(&[u8], u64, bool)], unplaced: u64) {
    let found = pool(plan, case, amounts);
    let unit = |&(persons, cents, open): &(&[u8], u64, bool)| {
        let block = set(persons);
        Unit { block, cents, open }
    };
    assert_eq!(found.answer.refusal, 0);
    assert_eq!(found.units, units.iter().map(unit).collect::<Vec<_>>());
    assert_eq!(found.unplaced, unplaced);
}

fn refused(found: PoolOutcome, refusal: u8) {
    assert_eq!(found, Outcome { refusal, ..Outcome::default() }.into());
}

/// The excluded and those of kind 2 are unplaced; the barred are pooled.
#[test]
fn who_is_pooled() {
    let plan = Plan {
        edges: vec![base(0, 1, 0)],
        statuses: vec![status(0, 2), status(2, 0)],
        bars: vec![bar(&[3], 0)],
        ..asked()
    };
    let units: [(&[u8], u64, bool); 3] =
        [(&[0, 1], 10, true), (&[2], 0, false), (&[3], 1000, false)];
    expect(&plan, &case(15), &[1, 10, 100, 1000], &units, 101);
}

#[test]
fn one_person_alone() {
    let excluded = Plan { statuses: vec![status(0, 0)], ..asked() };
    expect(&excluded, &case(1), &[1], &[(&[0], 0, false)], 1);
    let barred = Plan { bars: vec![bar(&[0], 0)], ..asked() };
    expect(&barred, &case(1), &[1], &[(&[0], 1, false)], 0);
    let both = Plan { statuses: vec![status(0, 0)], ..barred };
    expect(&both, &case(1), &[1], &[(&[0], 0, false)], 1);
    let perhaps = Plan { statuses: vec![status(0, 2)], ..asked() };
    expect(&perhaps, &case(1), &[1], &[(&[0], 0, true)], 1);
}

/// Units without a pooled person are listed all the same.
#[test]
fn units_without_a_pool() {
    let two = |statuses: Vec<Status>| Plan { edges: vec![base(0, 1, 0)], statuses, ..asked() };
    let open = two(vec![status(0, 2), status(1, 2)]);
    expect(&open, &case(3), &[5, 6], &[(&[0, 1], 0, true)], 11);
    let excluded = two(vec![status(0, 0), status(1, 0)]);
    expect(&excluded, &case(7), &[1, 7, 49], &[(&[0, 1], 0, false), (&[2], 49, false)], 8);
    let one_of_each = two(vec![status(0, 2), status(1, 0)]);
    expect(&one_of_each, &case(7), &[1, 7, 49], &[(&[0, 1], 0, true), (&[2], 49, false)], 8);
}

/// A mark is the unit's own, also where the same fact is open beside it.
#[test]
fn no_other_unit_is_marked() {
    let plan = Plan { edges: vec![base(0, 1, 0)], statuses: vec![status(0, 2)], ..asked() };
    expect(&plan, &case(7), &[1, 7, 49], &[(&[0, 1], 7, true), (&[2], 49, false)], 1);
}

/// Kinds 1, 3 and 4 have no block, so their amounts are in no pool.
#[test]
fn persons_without_a_block() {
    let membership = Plan { edges: vec![base(0, 1, 2)], ..asked() };
    expect(&membership, &case(7), &[1, 7, 49], &[(&[2], 49, false)], 8);
    let overlap = Plan { cuts: vec![cut(&[0, 1], 0), cut(&[1, 2], 0)], ..asked() };
    expect(&overlap, &case(15), &[1, 7, 49, 343], &[(&[3], 343, false)], 57);
    let discretion = Plan { edges: vec![base(0, 1, 0), base(1, 2, 0)], ..asked() };
    expect(&discretion, &case(15), &[1, 7, 49, 343], &[(&[3], 343, false)], 57);
}

/// Kinds 5 and 6: no units.
#[test]
fn nobody_is_decided() {
    let plan = Plan { edges: vec![base(0, 1, 0)], ..asked() };
    let incomplete = Case { complete: None, ..case(7) };
    expect(&plan, &incomplete, &[1, 2, 3], &[], 6);
    let never = Case { constraints: vec![1], ..case(7) };
    expect(&plan, &never, &[1, 2, 3], &[], 6);
}

/// By the lowest person, not by the mask's number.
#[test]
fn order_of_units() {
    let plan = Plan { edges: vec![base(0, 3, 0)], ..asked() };
    let units: [(&[u8], u64, bool); 3] = [(&[0, 3], 5, false), (&[1], 2, false), (&[2], 3, false)];
    expect(&plan, &case(15), &[1, 2, 3, 4], &units, 0);
    let far = Plan { edges: vec![base(63, 2, 0), base(9, 5, 0)], ..asked() };
    let units: [(&[u8], u64, bool); 3] =
        [(&[2, 63], 1001, false), (&[5, 9], 110, false), (&[62], 0, false)];
    expect(&far, &case(set(&[2, 5, 9, 62, 63])), &[1, 10, 100, 0, 1000], &units, 0);
}

/// 64 times the largest amount, in one pool and unplaced.
#[test]
fn the_largest_sums() {
    let most = 64 * u64::from(u32::MAX);
    assert_eq!(most, 274_877_906_880);
    let edges = (0..63).map(|person| base(person, person + 1, 0)).collect();
    let one = Plan { edges, chain: Some(0), ..asked() };
    let everybody: Vec<u8> = (0..64).collect();
    expect(&one, &case(u64::MAX), &[u32::MAX; 64], &[(&everybody, most, false)], 0);
    let incomplete = Case { complete: None, ..case(u64::MAX) };
    expect(&one, &incomplete, &[u32::MAX; 64], &[], most);
    let alone = pool(&asked(), &case(u64::MAX), &[u32::MAX; 64]);
    assert_eq!(alone.units.len(), 64);
    assert!(alone.units.iter().all(|unit| unit.cents == u64::from(u32::MAX)));
}

/// Shorter or longer, for every kind of roster.
#[test]
fn lists_of_the_wrong_length() {
    let never = Case { constraints: vec![1], ..case(7) };
    let incomplete = Case { complete: None, ..case(7) };
    for case in [case(7), never, incomplete] {
        for length in [0, 1, 2, 4, 6, 64, 65] {
            refused(pool(&asked(), &case, &vec![1; length]), 15);
        }
        assert_eq!(pool(&asked(), &case, &[1; 3]).answer.refusal, 0);
    }
    refused(pool(&asked(), &case(u64::MAX), &[1; 63]), 15);
    refused(pool(&asked(), &case(u64::MAX), &[1; 65]), 15);
}

/// 15 comes after all that the answer is refused for.
#[test]
fn what_comes_before_the_wrong_length() {
    let plan = Plan { edges: vec![base(0, 1, 0)], ..asked() };
    let family = Family { number: 3, scope: Some(1), complete: None };
    let twice = Case { families: vec![family; 2], ..case(7) };
    let never = Case { constraints: vec![1], ..case(7) };
    let few = Case { most_worlds: 0, ..case(7) };
    refused(pool_in(&plan, &case(7), &[1], 2, 0), 12);
    refused(pool_in(&plan, &case(7), &[1], 3, 0), 13);
    refused(pool_in(&plan, &case(7), &[1], 3, 1), 15);
    refused(pool_in(&plan, &never, &[1], 3, 0), 15);
    let found = pool(&plan, &twice, &[1]).answer;
    assert_eq!((found.refusal, found.record), (5, 2));
    let found = pool(&plan, &few, &[1]).answer;
    assert_eq!((found.refusal, found.count, found.maximum), (11, 1, 0));
    refused(pool(&plan, &Case { segment_complete: false, ..case(7) }, &[1]), 8);
    refused(pool(&plan, &Case { relation: 1, ..case(7) }, &[1]), 9);
    let broken = Plan { edges: vec![base(0, 1, 9)], ..asked() };
    let found = pool(&broken, &case(7), &[1]).answer;
    assert_eq!((found.refusal, found.record), (4, 5));
}

/// Of an incomplete roster nothing past 12 is asked before it.
#[test]
fn an_incomplete_roster() {
    let plan = Plan { edges: vec![base(0, 1, 0)], ..asked() };
    let incomplete = Case { complete: None, ..case(7) };
    let family = Family { number: 3, scope: Some(1), complete: None };
    let twice = Case { families: vec![family; 2], ..incomplete.clone() };
    let few = Case { most_worlds: 0, ..incomplete.clone() };
    for case in [incomplete, twice, few] {
        refused(pool_in(&plan, &case, &[1], 2, 0), 12);
        refused(pool_in(&plan, &case, &[1], 3, 0), 15);
        expect(&plan, &case, &[1, 2, 3], &[], 6);
    }
}

/// What the buffers hold is the answer's.
#[test]
fn lines_and_events_are_those_of_the_answer() {
    let (plan, case) = (whole_plan().encode(), whole_case().encode());
    let rooms = || (vec![0xa5; 200], vec![0x5a; 400]);
    let ((mut lines, mut events), (mut pool_lines, mut pool_events)) = (rooms(), rooms());
    let answer = model::answer(&plan, &case, &mut lines, &mut events);
    let found = model::pool(&plan, &case, &[1; 4], &mut pool_lines, &mut pool_events);
    assert_eq!((answer.refusal, found.answer), (0, answer));
    assert_eq!((lines, events), (pool_lines, pool_events));
}
