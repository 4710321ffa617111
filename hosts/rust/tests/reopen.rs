//! Plans and cases that are opened again, changed and finished.

use lukhveri::{
    Actor, Attachment, Bar, BuildError, CaseBuilder, Citation, Cut, Decision, Edge, Election,
    Family, Frame, Node, Paper, Persons, Plan, PlanBuilder, Policy, Precedence, ReopenError,
    RuleId, Status, answer,
};

const FRAME: Frame = Frame { scope: 1, segment: 1 };
const EXAMPLES: [&str; 6] = ["01", "nursery", "kitchen", "club", "allotments", "choir"];

fn persons(numbers: &[u8]) -> Persons {
    Persons::of(numbers).expect("persons")
}

fn file(folder: &str, name: &str) -> Vec<u8> {
    let path = format!("{}/../../examples/{folder}/{name}", env!("CARGO_MANIFEST_DIR"));
    std::fs::read(path).expect("an example")
}

fn bytes(hex: &str) -> Vec<u8> {
    let digits: Vec<u32> = hex.chars().filter_map(|digit| digit.to_digit(16)).collect();
    digits.chunks(2).map(|pair| (pair[0] * 16 + pair[1]) as u8).collect()
}

#[test]
fn the_examples_stay_as_they_are() {
    for folder in EXAMPLES {
        let (plan, case) = (file(folder, "plan.bin"), file(folder, "case.bin"));
        let read = Plan::read(&plan).expect(folder);
        let finished = PlanBuilder::reopen(&read).finish().expect(folder);
        assert_eq!(finished.bytes(), plan, "{folder}");
        for over in [&read, &finished] {
            let reopened = CaseBuilder::reopen(over, &case).expect(folder);
            assert_eq!(reopened.finish().expect(folder).bytes(), case, "{folder}");
        }
    }
}

/// Lists of defeaters, decisions, preceded cuts and observations with a count of 0 are left out, which means the same.
#[test]
fn empty_lists_are_left_out() {
    let plan =
        bytes("010100 0200 030400 030200 041f000100 05 00 0537 0100000000000000 01 06 00 00");
    let read = Plan::read(&plan).expect("a plan");
    let finished = PlanBuilder::reopen(&read).finish().expect("a plan");
    let short = bytes("010100 0200 030400 030200 040f000100 05 0507 0100000000000000 01 06");
    assert_eq!(finished.bytes(), short);
    let case = bytes("017f000101 0300000000000000 00 0010 0305 00 00");
    let reopened = CaseBuilder::reopen(&read, &case).expect("a case").finish().expect("a case");
    assert_eq!(reopened.bytes(), bytes("017f000101 0300000000000000 00 0010 0301 00"));
    assert_eq!(answer(&plan, &case), answer(finished.bytes(), reopened.bytes()));
}

/// A plan with every sort of rule, and its handles.
struct Club {
    plan: PlanBuilder,
    rules: [RuleId; 6],
}

fn club() -> Club {
    let mut plan = PlanBuilder::new(1);
    let wish = plan.boolean().expect("a fact");
    let lives = plan.relation(4, &[0, 1]).expect("a fact");
    let wished = plan.holds(wish).expect("a node");
    let live = plan.holds(lives).expect("a node");
    let first = plan.edge(Edge::base(0, 1, live, Citation(1))).expect("an edge");
    let second = plan.edge(Edge::combination(1, 2, live, Citation(2))).expect("an edge");
    let cut = Cut::new(persons(&[1]), wished, Citation(3)).deciding(second, Decision::Blocked);
    let cut = plan.cut(cut).expect("a cut");
    let rule = Attachment::new(persons(&[2, 3]), 0, wished, Citation(4), Actor(1));
    let rule = plan.attachment(rule).expect("an attachment");
    let bar = plan.bar(Bar::new(persons(&[1, 3]), wished, Citation(5))).expect("a bar");
    let status = plan.status(Status::new(2, wished, Citation(6))).expect("a status");
    let rules = [
        RuleId::Edge(first),
        RuleId::Edge(second),
        RuleId::Cut(cut),
        RuleId::Attachment(rule),
        RuleId::Bar(bar),
        RuleId::Status(status),
    ];
    Club { plan, rules }
}

/// Removing one rule takes nothing else, and the handles of all others find what they found.
#[test]
fn handles_outlive_a_removal() {
    for removed in 0..6 {
        let Club { mut plan, rules } = club();
        let before = plan.finish().expect("a plan");
        plan.remove_rule(rules[removed]).expect("a rule");
        assert!(plan.remove_rule(rules[removed]).is_err());
        let after = plan.finish().expect("a plan");
        for (at, rule) in rules.iter().enumerate() {
            assert_eq!(citation(&before, *rule), Some(at as u8 + 1));
            let found = (at != removed).then_some(at as u8 + 1);
            assert_eq!(citation(&after, *rule), found, "{rule:?} after {removed}");
        }
        lukhveri::check(after.bytes()).expect("an accepted plan");
    }
}

/// The citation of a rule, by its number in the plan's file.
fn citation(plan: &Plan, rule: RuleId) -> Option<u8> {
    let records = plan.records();
    let at = usize::from;
    Some(match rule {
        RuleId::Edge(edge) => records.edges[at(plan.edge_number(edge)?)].citation.0,
        RuleId::Cut(cut) => records.cuts[at(plan.cut_number(cut)?)].citation.0,
        RuleId::Attachment(rule) => {
            records.attachments[at(plan.attachment_number(rule)?)].citation.0
        }
        RuleId::Bar(bar) => records.bars[at(plan.bar_number(bar)?)].citation.0,
        RuleId::Status(status) => records.statuses[at(plan.status_number(status)?)].citation.0,
    })
}

/// Two builders opened from one plan: what one adds is strange to the other.
#[test]
fn two_openings_do_not_mix() {
    let plan = club().plan.finish().expect("a plan");
    let (mut left, mut right) = (PlanBuilder::reopen(&plan), PlanBuilder::reopen(&plan));
    let (ours, theirs) = (left.boolean().expect("a fact"), right.boolean().expect("a fact"));
    assert_eq!(left.holds(theirs), Err(BuildError::NotOfThisPlan { what: "fact" }));
    assert_eq!(right.holds(ours), Err(BuildError::NotOfThisPlan { what: "fact" }));
    assert!(left.holds(ours).is_ok() && right.holds(theirs).is_ok());
    assert_eq!(plan.fact_number(ours), None);
    let early = plan.boolean(0).expect("a fact");
    assert!(left.holds(early).is_ok() && right.holds(early).is_ok());
}

#[test]
fn a_person_leaves() {
    let Club { mut plan, rules } = club();
    let [first, second, cut, rule, bar, status] = rules;
    let gone = plan.remove_person(1).expect("a person");
    assert_eq!(gone.removed, [first, second, cut]);
    assert_eq!(gone.narrowed, [bar]);
    let finished = plan.finish().expect("a plan");
    let case = CaseBuilder::new(&finished, FRAME, persons(&[0, 2, 3])).expect("nobody is missed");
    assert!(answer(finished.bytes(), case.finish().expect("a case").bytes()).is_ok());
    assert_eq!(finished.records().bars[0].members, persons(&[3]));
    let gone = plan.remove_person(0).expect("a person");
    assert_eq!((gone.removed.as_slice(), gone.narrowed.len()), ([rule].as_slice(), 0));
    assert_eq!(plan.remove_person(2).expect("a person").removed, [status]);
    assert!(plan.remove_person(64).is_err());
    // The relation of 0 and 1 and its node are left, and nothing uses them.
    assert_eq!(plan.remove_unused(), 2);
    assert_eq!(plan.records().facts.len(), 1);
}

#[test]
fn every_rule_can_be_replaced() {
    let Club { mut plan, rules } = club();
    let never = plan.literal(false).expect("a node");
    let [first, second, cut, rule, bar, status] = rules;
    let (RuleId::Edge(first), RuleId::Edge(second)) = (first, second) else { panic!() };
    let (RuleId::Cut(cut), RuleId::Attachment(rule)) = (cut, rule) else { panic!() };
    let (RuleId::Bar(bar), RuleId::Status(status)) = (bar, status) else { panic!() };
    plan.replace_edge(first, Edge::base(4, 5, never, Citation(11))).expect("an edge");
    let wide = Edge::combination(64, 5, never, Citation(11));
    assert!(plan.replace_edge(first, wide).is_err());
    let changed = Cut::new(persons(&[2]), never, Citation(13));
    plan.replace_cut(cut, changed.clone()).expect("a cut");
    assert_eq!(plan.finish().err(), Some(BuildError::Undecided { cut, edge: second }));
    plan.decide(cut, second, Decision::Blocked).expect("a decision");
    let moved = Attachment::new(persons(&[5]), 4, never, Citation(14), Actor(2));
    plan.replace_attachment(rule, moved).expect("an attachment");
    plan.replace_bar(bar, Bar::new(persons(&[5]), never, Citation(15))).expect("a bar");
    plan.replace_status(status, Status::new(5, never, Citation(16))).expect("a status");
    let finished = plan.finish().expect("a plan");
    let cited: Vec<_> = rules.iter().map(|rule| citation(&finished, *rule)).collect();
    assert_eq!(cited, [11, 2, 13, 14, 15, 16].map(Some));
    assert_eq!(finished.records().cuts[0].members, changed.members);
    lukhveri::check(finished.bytes()).expect("an accepted plan");
}

#[test]
fn nodes_and_facts() {
    let mut plan = PlanBuilder::new(1);
    let lives = plan.relation(4, &[0, 1]).expect("a fact");
    let eats = plan.relation(5, &[0, 1]).expect("a fact");
    let live = plan.holds(lives).expect("a node");
    let not = plan.not(live).expect("a node");
    let all = plan.and(&[live, not]).expect("a node");
    plan.replace_node(all, Node::Or(vec![not, live])).expect("a node");
    assert_eq!(
        plan.replace_node(live, Node::Not(not)).map_err(|error| error.to_string()),
        Err("node 0 cannot use node 1, which does not come before it".to_string())
    );
    assert_eq!(
        plan.replace_node(not, Node::Not(not)),
        Err(BuildError::NotLower { node: not, child: not })
    );
    assert_eq!(plan.remove_node(live), Err(BuildError::InUse { what: "node" }));
    assert_eq!(plan.remove_fact(lives), Err(BuildError::InUse { what: "fact" }));
    assert!(plan.replace_relation(eats, 4, &[0, 1]).is_err());
    plan.replace_relation(eats, 3, &[7]).expect("a relation");
    let finished = plan.finish().expect("a plan");
    assert_eq!([eats, lives].map(|fact| finished.fact_number(fact)), [Some(0), Some(1)]);
    plan.remove_fact(eats).expect("a fact");
    plan.remove_node(all).expect("a node");
    assert_eq!(plan.remove_node(all), Err(BuildError::NotOfThisPlan { what: "node" }));
    assert_eq!(
        plan.finish().expect("a plan").bytes(),
        bytes("010101 0203 04 02 00 01 030200 031000")
    );
}

#[test]
fn decisions_are_taken_anew() {
    let Club { mut plan, rules } = club();
    let (RuleId::Edge(edge), RuleId::Cut(cut)) = (rules[1], rules[2]) else { panic!() };
    plan.redecide(cut, edge, Decision::Unresolved).expect("a decision");
    assert_eq!(plan.finish().expect("a plan").decisions(), [(cut, edge)]);
    plan.undecide(cut, edge).expect("a decision");
    assert_eq!(plan.undecided().collect::<Vec<_>>(), [(cut, edge)]);
    let nothing = BuildError::NotThere { what: "decision" };
    assert_eq!(plan.redecide(cut, edge, Decision::Blocked), Err(nothing));
    plan.precede(Precedence { cut, precedes: cut }).expect("a precedence");
    plan.unprecede(Precedence { cut, precedes: cut }).expect("a precedence");
    assert!(plan.unprecede(Precedence { cut, precedes: cut }).is_err());
}

#[test]
fn elections_change_together() {
    let mut plan = PlanBuilder::new(1);
    let wish = plan.boolean().expect("a fact");
    let node = plan.holds(wish).expect("a node");
    let (actor, policy, citation) = (Actor(8), Policy::Unknown, Citation(6));
    let election = Election { fact: wish, actor, policy, citation };
    let cut =
        plan.cut(Cut::new(persons(&[0]), node, Citation(5)).elected(election)).expect("a cut");
    let rule = Attachment::new(persons(&[1]), 0, node, Citation(5), actor).elected(election);
    plan.attachment(rule).expect("an attachment");
    let other = Election { policy: Policy::DefaultTrue, ..election };
    let changed = Cut::new(persons(&[0]), node, Citation(5)).elected(other);
    assert_eq!(plan.replace_cut(cut, changed), Err(BuildError::ElectionsDiffer { fact: wish }));
    assert_eq!(plan.replace_elections(other), Ok(2));
    assert_eq!(plan.records().cuts[0].election, Some(other));
    lukhveri::check(plan.finish().expect("a plan").bytes()).expect("an accepted plan");
}

/// What stood above a node that was removed is written with the number that it has.
#[test]
fn numbers_follow_a_removal() {
    let mut plan = PlanBuilder::new(1);
    let first = plan.literal(false).expect("a node");
    let second = plan.literal(true).expect("a node");
    let third = plan.not(second).expect("a node");
    let edge = plan.edge(Edge::base(0, 1, second, Citation(5)).unless(third)).expect("an edge");
    let cut = plan.cut(Cut::new(persons(&[7]), third, Citation(6))).expect("a cut");
    let other = plan.cut(Cut::new(persons(&[8]), second, Citation(7))).expect("a cut");
    plan.precede(Precedence { cut: other, precedes: other }).expect("a precedence");
    plan.decide(other, edge, Decision::Overrides).expect("a decision");
    plan.remove_node(first).expect("a node");
    plan.remove_cut(cut).expect("a cut");
    let finished = plan.finish().expect("a plan");
    let wanted =
        "010101 030101 031000 041f 00 01 00 05 01 01 0537 0001000000000000 00 07 01 0002 01 00";
    assert_eq!(finished.bytes(), bytes(wanted));
    assert_eq!(finished.node_number(third), Some(1));
    assert_eq!(finished.node_number(first), None);
    assert_eq!(finished.node(1), Some(third));
}

/// A plan whose facts get other numbers, and a case that follows it.
#[test]
fn a_case_follows_its_plan() {
    let plan = Plan::read(&file("nursery", "plan.bin")).expect("a plan");
    let mut changed = PlanBuilder::reopen(&plan);
    let before = changed.relation(0, &[1]).expect("a fact");
    let born = changed.holds(before).expect("a node");
    changed.edge(Edge::base(0, 6, born, Citation(9))).expect("an edge");
    let changed = changed.finish().expect("a plan");
    assert_eq!(changed.fact_number(plan.relation(1).expect("a fact")), Some(2));
    let case = CaseBuilder::reopen(&plan, &file("nursery", "case.bin")).expect("a case");
    let off = case.over(&changed, persons(&[0, 1, 2, 3, 4, 5])).err();
    assert_eq!(off, Some(BuildError::OffRoster { persons: persons(&[6]) }));
    let mut case = case.over(&changed, persons(&[0, 1, 2, 3, 4, 5, 6])).expect("a case");
    case.family(Family::new(0)).expect("a family");
    let told =
        lukhveri::CaseRecords::read(case.finish().expect("a case").bytes()).expect("records");
    assert_eq!((told.complete, told.booleans.len(), told.families.len()), (None, 1, 2));
    case.roster_complete(Paper(1)).expect("a paper");
    let answer =
        answer(changed.bytes(), case.finish().expect("a case").bytes()).expect("an answer");
    assert_eq!(answer.line(3).map(|line| line.block), Some(persons(&[3, 4])));
}

#[test]
fn what_a_case_says_can_change() {
    let mut plan = PlanBuilder::new(1);
    let wish = plan.boolean().expect("a fact");
    let lives = plan.relation(4, &[0, 1]).expect("a fact");
    let wished = plan.holds(wish).expect("a node");
    let plan = plan.finish().expect("a plan");
    let mut case = CaseBuilder::new(&plan, FRAME, persons(&[0, 1])).expect("a case");
    let empty = case.finish().expect("a case");
    case.roster_complete(Paper(3)).expect("a paper");
    case.family(Family::new(4)).expect("a family");
    case.observe(wish, true, Paper(1)).expect("an observation");
    case.observe(wish, false, Paper(2)).expect("an observation");
    case.relate(lives, true, Paper(5)).expect("a relation");
    case.constrain(wished).expect("a constraint");
    case.segment_incomplete();
    let full = case.finish().expect("a case");
    let mut case = CaseBuilder::reopen(&plan, full.bytes()).expect("a case");
    assert_eq!(case.finish().as_ref(), Ok(&full));
    assert!(case.withdraw(wish, true, Paper(2)).is_err());
    case.withdraw(wish, true, Paper(1)).expect("an observation");
    assert_eq!(case.forget(wish), Ok(1));
    assert_eq!(case.forget(wish), Ok(0));
    assert!(case.unrelate(lives, false, Paper(5)).is_err());
    case.remove_family(4).expect("a family");
    assert_eq!(case.finish(), Err(BuildError::NoFamily { family: 4 }));
    case.family(Family::new(4)).expect("a family");
    case.replace_family(Family::new(4).complete(Paper(6))).expect("a family");
    assert!(case.replace_family(Family::new(5)).is_err());
    case.unrelate(lives, true, Paper(5)).expect("a relation");
    case.remove_family(4).expect("a family");
    case.unconstrain(wished).expect("a constraint");
    assert_eq!(case.unconstrain(wished), Err(BuildError::NotThere { what: "constraint" }));
    case.segment_complete();
    case.roster_incomplete();
    assert_eq!(case.finish(), Ok(empty));
    case.roster_complete(Paper(3)).expect("a paper");
    case.roster(persons(&[0, 1, 2])).expect("a roster");
    case.frame(Frame { scope: 2, segment: 3 }).expect("a frame");
    case.most_worlds(7).expect("worlds");
    let wanted = bytes("015f 01 02 03 0700000000000000 0700");
    assert_eq!(case.finish().expect("a case").bytes(), wanted);
    assert!(case.frame(Frame { scope: 0, segment: 3 }).is_err());
    assert_eq!(case.roster(Persons::NOBODY), Err(BuildError::EmptyRoster));
}

/// A scope that is left out is not taken for the roster's, and stays left out.
#[test]
fn families_without_a_scope() {
    let plan = Plan::read(&bytes("010100 0203 04 00 030200")).expect("a plan");
    let case = bytes("017f000101 0300000000000000 00 0010 0201 04 0203 05 00 0203 06 01");
    let mut reopened = CaseBuilder::reopen(&plan, &case).expect("a case");
    assert_eq!(reopened.finish().expect("a case").bytes(), case);
    reopened.frame(Frame { scope: 2, segment: 1 }).expect("a frame");
    let wanted = bytes("017f000201 0300000000000000 00 0010 0201 04 0203 05 00 0203 06 01");
    assert_eq!(reopened.finish().expect("a case").bytes(), wanted);
}

#[test]
fn what_cannot_be_opened() {
    let plan = Plan::read(&bytes("010100 0200 030200 080703 00 00")).expect("a plan");
    let says = |case: &str| match CaseBuilder::reopen(&plan, &bytes(case)) {
        Ok(_) => panic!("{case} was opened"),
        Err(error) => error.to_string(),
    };
    assert!(says("").starts_with("refused 3: case, record 0"));
    assert!(
        says("017f000101 0800000000000000 00 0010 0301 04")
            .starts_with("refused 4: case, record 1")
    );
    assert!(says("017f010101 0800000000000000 00 0010").starts_with("refused 9: case, record 0"));
    assert!(says("017f000101 0100000000000000 00 0010").starts_with("refused 9"));
    // The segment is not complete, which is asked before the heading is.
    assert_eq!(
        says("0177010101 0800000000000000 00 0010"),
        "the relation of the case is 1, that of the plan is 0"
    );
    assert_eq!(
        says("0177000101 0100000000000000 00 0010"),
        "rules of the plan name persons who are not on the roster: 3"
    );
    assert_eq!(says("0177000001 0800000000000000 00 0010"), "scope 0 is outside 1 to 255");
    // The roster is not complete, so an answer asks neither of families nor of facts.
    let twice = "015f000101 0800000000000000 0010";
    assert_eq!(says(&format!("{twice} 0201 04 0201 04")), "family 4 has a record already");
    assert_eq!(
        says(&format!("{twice} 0301 00 0301 00")),
        "two records of the case are about boolean fact 0"
    );
    assert_eq!(
        says(&format!("{twice} 0307 00 01 01 0001")),
        "boolean fact 0 cannot be unknown and observed"
    );
    let open = bytes("017f000101 0800000000000000 00 0000");
    assert!(
        CaseBuilder::reopen(&plan, &open).is_ok(),
        "no worlds are allowed, which a change mends"
    );
    let error = CaseBuilder::reopen(&plan, &[]).err();
    assert!(matches!(error, Some(ReopenError::Refused(refusal)) if refusal.number() == 3));
}
