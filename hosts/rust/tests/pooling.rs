//! Amounts pooled by unit, through the static library.

use lukhveri::amounts::{Amounts, AmountsError};
use lukhveri::names::Names;
use lukhveri::{
    Attachment, Bar, Buffers, CaseBuilder, Citation, Cut, Edge, Frame, LineKind, Paper, Persons,
    Plan, PlanBuilder, Reason, Status, Unit, answer, pool, pool_into, words,
};

fn persons(numbers: &[u8]) -> Persons {
    Persons::of(numbers).expect("persons")
}

fn unit(numbers: &[u8], cents: u64, open: bool) -> Unit {
    Unit { persons: persons(numbers), cents, open }
}

fn builder<'a>(plan: &'a Plan, roster: &[u8]) -> CaseBuilder<'a> {
    CaseBuilder::new(plan, Frame { scope: 1, segment: 1 }, persons(roster)).expect("a case")
}

fn complete(plan: &Plan, roster: &[u8]) -> Vec<u8> {
    let mut case = builder(plan, roster);
    case.roster_complete(Paper(1)).expect("evidence");
    case.finish().expect("a case").bytes().to_vec()
}

/// An edge between 0 and 1, a status on 0 if an unknown fact holds, a status on 2, a bar on 3.
fn choir() -> Plan {
    let mut plan = PlanBuilder::new(1);
    let fact = plan.boolean().expect("a fact");
    let (always, paid) = (plan.literal(true).expect("a node"), plan.holds(fact).expect("a node"));
    plan.edge(Edge::base(0, 1, always, Citation(1))).expect("an edge");
    plan.bar(Bar::new(persons(&[3]), always, Citation(3))).expect("a bar");
    plan.status(Status::new(0, paid, Citation(2))).expect("a status");
    plan.status(Status::new(2, always, Citation(2))).expect("a status");
    plan.finish().expect("a plan")
}

/// Edges that always hold.
fn edges(pairs: &[(u8, u8)]) -> Plan {
    let mut plan = PlanBuilder::new(1);
    let always = plan.literal(true).expect("a node");
    for (left, right) in pairs {
        plan.edge(Edge::base(*left, *right, always, Citation(1))).expect("an edge");
    }
    plan.finish().expect("a plan")
}

#[test]
fn who_is_pooled_who_is_unplaced_what_is_open() {
    let plan = choir();
    let case = complete(&plan, &[0, 1, 2, 3]);
    let pools = pool(plan.bytes(), &case, &[1, 10, 100, 1000]).expect("pools");
    let units = [unit(&[0, 1], 10, true), unit(&[2], 0, false), unit(&[3], 1000, false)];
    assert_eq!(pools.units, units);
    assert_eq!((pools.unplaced, pools.pooled(), pools.sum()), (101, 1010, 1111));
    assert_eq!(units.map(|unit| pools.answer.is_household(unit.persons)), [true, false, true]);
    assert_eq!(Ok(&pools.answer), answer(plan.bytes(), &case).as_ref());
}

#[test]
fn a_unit_of_which_nobody_is_pooled() {
    let mut plan = PlanBuilder::new(1);
    let fact = plan.boolean().expect("a fact");
    let (always, open) = (plan.literal(true).expect("a node"), plan.holds(fact).expect("a node"));
    plan.edge(Edge::base(0, 1, always, Citation(1))).expect("an edge");
    plan.status(Status::new(0, open, Citation(2))).expect("a status");
    plan.status(Status::new(1, open, Citation(2))).expect("a status");
    let plan = plan.finish().expect("a plan");
    let pools = pool(plan.bytes(), &complete(&plan, &[0, 1]), &[5, 6]).expect("pools");
    assert_eq!((pools.units.as_slice(), pools.unplaced), (&[unit(&[0, 1], 0, true)][..], 11));
    let said = words::pools(&pools, &[5, 6], &Names::default()).concat();
    let row = "  Person 0 and person 1: 0 cents, as nobody in it is pooled. Open: this pool is not final as long as \
               person 0 or person 1 has no decided role; the amounts of person 0 and person 1 are not in it, but unplaced.";
    assert_eq!(said[1], row);
}

/// A chain that an open answer makes: discretion is not needed by every answer.
#[test]
fn discretion_by_some_of_the_answers() {
    let mut plan = PlanBuilder::new(1);
    let fact = plan.boolean().expect("a fact");
    let (always, open) = (plan.literal(true).expect("a node"), plan.holds(fact).expect("a node"));
    plan.edge(Edge::base(0, 1, always, Citation(1))).expect("an edge");
    plan.edge(Edge::base(1, 2, open, Citation(1))).expect("an edge");
    let plan = plan.finish().expect("a plan");
    let amounts = [1, 2, 3];
    let pools = pool(plan.bytes(), &complete(&plan, &[0, 1, 2]), &amounts).expect("pools");
    let said = words::pools(&pools, &amounts, &Names::default());
    let row = "  Person 0: 1 cent; left to discretion, by some or all of the open answers.";
    assert_eq!(said[1][1], row);
}

/// By the lowest person, not by the mask's number.
#[test]
fn units_in_order_of_their_lowest_persons() {
    let plan = edges(&[(0, 3)]);
    let pools = pool(plan.bytes(), &complete(&plan, &[0, 1, 2, 3]), &[1, 2, 4, 8]).expect("pools");
    let units = [unit(&[0, 3], 9, false), unit(&[1], 2, false), unit(&[2], 4, false)];
    assert_eq!((pools.units.as_slice(), pools.unplaced), (&units[..], 0));
}

/// 64 of the largest amounts, in one unit each and in one for all.
#[test]
fn the_largest_sums() {
    let everybody: Vec<u8> = (0..64).collect();
    let amounts = [u32::MAX; 64];
    let alone = edges(&[]);
    let pools = pool(alone.bytes(), &complete(&alone, &everybody), &amounts).expect("pools");
    assert_eq!(pools.units.len(), 64);
    assert!(pools.units.iter().all(|unit| unit.cents == 4_294_967_295 && !unit.open));
    let mut plan = PlanBuilder::new(1);
    let always = plan.literal(true).expect("a node");
    plan.base_chain(Citation(1)).expect("a citation");
    for left in 0..63 {
        plan.edge(Edge::base(left, left + 1, always, Citation(1))).expect("an edge");
    }
    let plan = plan.finish().expect("a plan");
    let pools = pool(plan.bytes(), &complete(&plan, &everybody), &amounts).expect("pools");
    assert_eq!(pools.units, [unit(&everybody, 274_877_906_880, false)]);
    assert_eq!((pools.unplaced, pools.sum()), (0, 274_877_906_880));
}

/// Kinds 5 and 6: no units, and everything is unplaced.
#[test]
fn rosters_without_units() {
    let mut plan = PlanBuilder::new(1);
    let never = plan.literal(false).expect("a node");
    let plan = plan.finish().expect("a plan");
    let incomplete = builder(&plan, &[0, 1, 2]).finish().expect("a case").bytes().to_vec();
    let mut case = builder(&plan, &[0, 1, 2]);
    case.roster_complete(Paper(1)).expect("evidence");
    case.constrain(never).expect("a constraint");
    let inconsistent = case.finish().expect("a case").bytes().to_vec();
    let kinds = [LineKind::RosterIncomplete, LineKind::Inconsistent];
    for (case, kind) in [incomplete, inconsistent].iter().zip(kinds) {
        let pools = pool(plan.bytes(), case, &[1, 2, 3]).expect("pools");
        assert!(pools.answer.lines.iter().all(|line| line.kind == kind));
        assert_eq!((pools.units.len(), pools.unplaced, pools.sum()), (0, 6, 6));
        let refusal = pool(plan.bytes(), case, &[1, 2]).expect_err("15");
        assert_eq!(refusal.reason, Reason::AmountsDoNotFit);
        let said = words::pools(&pools, &[1, 2, 3], &Names::default());
        assert_eq!(said[0], ["There are no units."]);
        assert_eq!((said[1][0].as_str(), said[1].len()), ("Unplaced: 6 cents.", 4));
    }
}

/// Kinds 1, 3 and 4, and everybody pooled.
#[test]
fn why_somebody_is_unplaced() {
    let mut plan = PlanBuilder::new(1);
    let fact = plan.boolean().expect("a fact");
    let (always, open) = (plan.literal(true).expect("a node"), plan.holds(fact).expect("a node"));
    plan.edge(Edge::base(0, 1, open, Citation(1))).expect("an edge");
    plan.edge(Edge::base(5, 6, always, Citation(1))).expect("an edge");
    plan.edge(Edge::base(6, 7, always, Citation(1))).expect("an edge");
    plan.cut(Cut::new(persons(&[2, 3]), always, Citation(2))).expect("a cut");
    plan.cut(Cut::new(persons(&[3, 4]), always, Citation(2))).expect("a cut");
    let plan = plan.finish().expect("a plan");
    let case = complete(&plan, &[0, 1, 2, 3, 4, 5, 6, 7, 8]);
    let amounts = [1, 2, 4, 8, 16, 32, 64, 128, 256];
    let pools = pool(plan.bytes(), &case, &amounts).expect("pools");
    assert_eq!((pools.units.as_slice(), pools.unplaced), (&[unit(&[8], 256, false)][..], 255));
    let names = Names::read("person 0 ana\nperson 3 Beka").expect("names");
    let [_, said, sums] = words::pools(&pools, &amounts, &names);
    assert_eq!(said[0], "Unplaced: 255 cents.");
    assert_eq!(said[1], "  Ana: 1 cent; it is open with whom this person is counted.");
    assert_eq!(said[4], "  Beka: 8 cents; nothing is decided, as cuts overlap.");
    assert_eq!(said[8], "  Person 7: 128 cents; left to discretion.");
    let whole = "Pools and unplaced amounts together: 511 cents, the sum of the whole list.";
    assert_eq!(sums, ["All pools together: 256 cents.", whole]);
    let plan = edges(&[(0, 1)]);
    let pools = pool(plan.bytes(), &complete(&plan, &[0, 1]), &[3, 4]).expect("pools");
    let [units, said, _] = words::pools(&pools, &[3, 4], &Names::default());
    assert_eq!(units, ["1 unit, with its pool:", "  Person 0 and person 1: 7 cents."]);
    assert_eq!(said, ["Unplaced: 0 cents; everybody is pooled."]);
}

/// Somebody who is attached is pooled with the anchor's unit; an open role beside it marks that unit and no other.
#[test]
fn attached_and_open_beside_each_other() {
    let mut plan = PlanBuilder::new(1);
    let fact = plan.boolean().expect("a fact");
    let (always, open) = (plan.literal(true).expect("a node"), plan.holds(fact).expect("a node"));
    let host = lukhveri::Actor(1);
    let guest = Attachment::new(persons(&[2]), 0, always, Citation(1), host);
    plan.attachment(guest).expect("an attachment");
    plan.status(Status::new(1, open, Citation(2))).expect("a status");
    let plan = plan.finish().expect("a plan");
    let pools = pool(plan.bytes(), &complete(&plan, &[0, 1, 2]), &[1, 10, 100]).expect("pools");
    let units = [unit(&[0, 2], 101, false), unit(&[1], 0, true)];
    assert_eq!((pools.units.as_slice(), pools.unplaced), (&units[..], 10));
}

/// 15 is asked after everything that an answer is refused for; then both buffers are zero.
#[test]
fn refusals_in_their_order() {
    let plan = edges(&[(0, 1)]);
    let case = complete(&plan, &[0, 1, 2]);
    let ask = |case: &[u8], amounts: &[u32], lines: usize, events: usize| {
        let (mut lines, mut events) = (vec![170; lines], vec![170; events]);
        let pooled = pool_into(plan.bytes(), case, amounts, &mut lines, &mut events);
        let number = pooled.map_or_else(|refusal| refusal.number(), |_| 0);
        assert!(number == 0 || lines.iter().chain(&events).all(|byte| *byte == 0));
        number
    };
    assert_eq!(ask(&case, &[1, 2, 3], 87, 12), 0);
    assert_eq!(ask(&case, &[1, 2], 87, 12), 15);
    assert_eq!(ask(&case, &[1, 2, 3, 4], 90, 24), 15);
    assert_eq!(ask(&case, &[], 87, 12), 15);
    assert_eq!(ask(&case, &[1], 87, 0), 13);
    assert_eq!(ask(&case, &[1], 86, 0), 12);
    assert_eq!(ask(&case[..9], &[1], 87, 0), 1);
    let open = builder(&plan, &[0, 1, 2]).finish().expect("a case").bytes().to_vec();
    assert_eq!(ask(&open, &[1], 87, 0), 15);
    assert_eq!(ask(&open, &[1], 86, 0), 12);
    assert_eq!(ask(&open, &[1, 2, 3], 87, 0), 0);
}

/// What was pooled before leaves nothing behind; a refusal of the answer is the answer's.
#[test]
fn buffers_are_used_again() {
    let (plan, pair) = (choir(), edges(&[(0, 1)]));
    let (long, short) = (complete(&plan, &[0, 1, 2, 3]), complete(&pair, &[0, 1]));
    let mut buffers = Buffers::new();
    let first = buffers.pool(plan.bytes(), &long, &[1, 10, 100, 1000]).expect("pools").to_pools();
    let pooled = buffers.pool(pair.bytes(), &short, &[7, 8]).expect("pools");
    assert_eq!(pooled.units().collect::<Vec<_>>(), [unit(&[0, 1], 15, false)]);
    assert_eq!((pooled.unplaced(), pooled.answered().worlds()), (0, 1));
    assert_eq!((pooled.lines().count(), pooled.events().count()), (2, 1));
    assert!(buffers.pool(pair.bytes(), &short, &[7]).is_err());
    let again = buffers.pool(plan.bytes(), &long, &[1, 10, 100, 1000]).expect("pools").to_pools();
    assert_eq!(first, again);
    let refusal = pool(pair.bytes(), &short[..9], &[]).expect_err("cut short");
    assert_eq!(Some(refusal), answer(pair.bytes(), &short[..9]).err());
}

/// Lists from files: what the answer is refused for comes first.
#[test]
fn lists_of_files() {
    let (plan, names) = (choir(), Names::read("person 2 Rezo").expect("names"));
    let case = complete(&plan, &[0, 1, 2, 3]);
    let list = |amounts: &Amounts, case: &[u8]| amounts.list(plan.bytes(), case, &names);
    let bytes: Vec<u8> = [1u32, 10, u32::MAX].iter().flat_map(|one| one.to_le_bytes()).collect();
    assert_eq!(list(&Amounts::Bytes(bytes), &case), Ok(vec![1, 10, u32::MAX]));
    assert_eq!(list(&Amounts::Bytes(Vec::new()), &case), Ok(Vec::new()));
    let number = |amounts: Amounts, case: &[u8]| match list(&amounts, case) {
        Err(AmountsError::Refused(refusal)) => refusal.number(),
        other => panic!("{other:?}"),
    };
    assert_eq!(number(Amounts::Bytes(vec![0; 15]), &case), 15);
    assert_eq!(number(Amounts::Bytes(vec![0; 15]), &case[..9]), 1);
    assert_eq!(number(Amounts::Bytes(vec![0; 15]), &[]), 3);
    let table = |text: &str| Amounts::Table(text.to_string());
    let text = "person,cents\r\n3,1000\r\nRezo,100\r\n1,10\r\n0,1\r\n";
    assert_eq!(list(&table(text), &case), Ok(vec![1, 10, 100, 1000]));
    assert!(matches!(list(&table("0,1"), &case), Err(AmountsError::Table(_))));
    assert_eq!(number(table("0,1"), &case[..9]), 1);
    assert_eq!(number(table(text), &[]), 3);
}
