//! Texts of the lister that are worked out by hand: its rows, and who counts as a household.

use inputs::build::*;
use inputs::wire::*;
use model::fields::Fields;
use model::lister::{households, text};

const LINE: usize = 29;
const EVENT: usize = 12;

/// Node 0 is true, node 1 false, node 2 a fact of which nothing is known.
fn asked() -> Plan {
    let nodes = vec![Node::Literal(1), Node::Literal(0), Node::Fact(0)];
    Plan { facts: vec![None], nodes, ..Plan::default() }
}

/// With room for so many lines and events.
fn list_in(plan: &Plan, case: &Case, lines: usize, events: usize) -> String {
    let (mut lines, mut events) = (vec![0xa5; lines * LINE], vec![0xa5; events * EVENT]);
    let outcome = model::answer(&plan.encode(), &case.encode(), &mut lines, &mut events);
    text(&outcome, &lines)
}

/// The rows under the header, and the number in the last one.
fn expect(plan: &Plan, case: &Case, rows: &[&str], units: usize) {
    let rows: String = rows.iter().map(|row| format!("{row}\n")).collect();
    let wanted = format!("person kind role block\n{rows}units {units}\n");
    assert_eq!(list_in(plan, case, 64, 4096), wanted);
}

#[test]
fn one_person_alone() {
    let one = case(1);
    expect(&asked(), &one, &["0 0 1 0"], 1);
    let excluded = Plan { statuses: vec![status(0, 0)], ..asked() };
    expect(&excluded, &one, &["0 0 2 0"], 0);
    let barred = Plan { bars: vec![bar(&[0], 0)], ..asked() };
    expect(&barred, &one, &["0 0 3 0"], 1);
    let both = Plan { statuses: vec![status(0, 0)], ..barred };
    expect(&both, &one, &["0 0 2 0"], 0);
    let perhaps = Plan { statuses: vec![status(0, 2)], ..asked() };
    expect(&perhaps, &one, &["0 2 0 0"], 1);
    let never = Plan { statuses: vec![status(0, 1)], ..asked() };
    expect(&never, &one, &["0 0 1 0"], 1);
}

/// Makes a person of a plan one of some sort.
type Make = fn(&mut Plan, u8);

/// Two in a block, in every pair of roles that are certain, or open.
#[test]
fn two_in_a_block() {
    let sorts: [(&str, Make); 4] = [
        ("0 1", |_, _| {}),
        ("0 2", |plan, person| plan.statuses.push(status(person, 0))),
        ("0 3", |plan, person| plan.bars.push(bar(&[person], 0))),
        ("2 0", |plan, person| plan.statuses.push(status(person, 2))),
    ];
    for (first, make_first) in sorts {
        for (second, make_second) in sorts {
            let mut plan = Plan { edges: vec![base(0, 1, 0)], ..asked() };
            make_first(&mut plan, 0);
            make_second(&mut plan, 1);
            let rows = [format!("0 {first} 0,1"), format!("1 {second} 0,1")];
            let units = usize::from((first, second) != ("0 2", "0 2"));
            expect(&plan, &case(3), &[&rows[0], &rows[1]], units);
        }
    }
}

/// Blocks that are struck out beside others that are not.
#[test]
fn the_other_blocks_are_counted() {
    let plan = Plan {
        edges: vec![base(0, 4, 0), base(1, 3, 0)],
        statuses: vec![status(0, 0), status(4, 0), status(1, 0), status(2, 0), status(3, 2)],
        ..asked()
    };
    let rows = ["0 0 2 0,4", "1 0 2 1,3", "2 0 2 2", "3 2 0 1,3", "4 0 2 0,4", "5 0 1 5"];
    expect(&plan, &case(63), &rows, 2);
    let barred = Plan { bars: vec![bar(&[0, 2, 4], 0)], statuses: vec![status(4, 0)], ..plan };
    let rows = ["0 0 3 0,4", "1 0 1 1,3", "2 0 3 2", "3 0 1 1,3", "4 0 2 0,4", "5 0 1 5"];
    expect(&barred, &case(63), &rows, 4);
}

/// Kinds 1, 3 and 4 have no block; kinds 5 and 6 are everybody's.
#[test]
fn persons_without_a_block() {
    let statuses = vec![status(2, 0)];
    let membership = Plan { edges: vec![base(0, 1, 2)], statuses: statuses.clone(), ..asked() };
    expect(&membership, &case(7), &["0 1 0 -", "1 1 0 -", "2 0 2 2"], 0);
    let cuts = vec![cut(&[0, 1], 0), cut(&[1, 2], 0)];
    let overlap = Plan { cuts, ..asked() };
    expect(&overlap, &case(15), &["0 3 0 -", "1 3 0 -", "2 3 0 -", "3 0 1 3"], 1);
    let discretion = Plan { edges: vec![base(0, 1, 0), base(1, 2, 0)], ..asked() };
    expect(&discretion, &case(15), &["0 4 0 -", "1 4 0 -", "2 4 0 -", "3 0 1 3"], 1);
    let incomplete = Case { complete: None, ..case(7) };
    expect(&membership, &incomplete, &["0 5 0 -", "1 5 0 -", "2 5 0 -"], 0);
    let never = Case { constraints: vec![1], ..case(7) };
    expect(&membership, &never, &["0 6 0 -", "1 6 0 -", "2 6 0 -"], 0);
}

/// As many statuses as there may be: half of those who are alone.
#[test]
fn all_persons() {
    let count = |plan: &Plan| {
        let text = list_in(plan, &case(u64::MAX), 64, 4096);
        text.lines().last().expect("a row").to_string()
    };
    assert_eq!(count(&asked()), "units 64");
    let statuses: Vec<Status> = (0..32).map(|person| status(2 * person, 0)).collect();
    let alone = Plan { statuses, ..asked() };
    assert_eq!(count(&alone), "units 32");
    let pairs = (0..32).map(|pair| base(2 * pair, 2 * pair + 1, 0)).collect();
    assert_eq!(count(&Plan { edges: pairs, ..alone.clone() }), "units 32");
    let among = (0..16).map(|pair| base(4 * pair, 4 * pair + 2, 0)).collect();
    assert_eq!(count(&Plan { edges: among, ..alone }), "units 32");
    let chain = (0..63).map(|person| base(person, person + 1, 0)).collect();
    assert_eq!(count(&Plan { edges: chain, chain: Some(0), ..asked() }), "units 1");
}

/// "Pools of Ticket 1 list these blocks still, with pool 0."
#[test]
fn pools_list_what_is_no_household() {
    let plan =
        Plan { edges: vec![base(0, 1, 0)], statuses: vec![status(0, 0), status(1, 0)], ..asked() };
    let (mut lines, mut events) = ([0; 3 * LINE], [0; 4096]);
    let found =
        model::pool(&plan.encode(), &case(7).encode(), &[1, 7, 49], &mut lines, &mut events);
    let units: Vec<(u64, u64)> = found.units.iter().map(|unit| (unit.block, unit.cents)).collect();
    assert_eq!(units, [(3, 0), (4, 49)]);
    assert_eq!(households(&Fields::each(&lines).collect::<Vec<_>>()), 1);
}

#[test]
fn refusals() {
    let plan = Plan { edges: vec![base(0, 1, 0)], ..asked() };
    assert_eq!(list_in(&plan, &case(7), 2, 1), "refused 12 0\n");
    assert_eq!(list_in(&plan, &case(7), 3, 0), "refused 13 0\n");
    let few = Case { most_worlds: 0, ..case(7) };
    assert_eq!(list_in(&plan, &few, 3, 1), "refused 11 0\n");
    let broken = Plan { edges: vec![base(0, 1, 9)], ..asked() };
    assert_eq!(list_in(&broken, &case(7), 3, 1), "refused 4 5\n");
    assert_eq!(list_in(&plan, &Case { segment_complete: false, ..case(7) }, 3, 1), "refused 8 0\n");
}
