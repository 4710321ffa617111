//! Check, answer, show, list and circles through the static library.

use lukhveri::{
    Actor, Buffers, CaseBuilder, Citation, Cut, Decision, EVENTS_LENGTH, Edge, Election, Event,
    File, Frame, LINES_LENGTH, LineKind, MOST_EVENTS_LENGTH, Paper, Persons, Plan, PlanBuilder,
    Policy, Reason, Role, STACK, Status, TEXT_LENGTH, answer, answer_into, check, circle, list,
    show,
};

fn persons(numbers: &[u8]) -> Persons {
    Persons::of(numbers).expect("persons")
}

/// The plan of document 01's example: a Base edge between 0 and 1.
fn pair() -> Plan {
    let mut plan = PlanBuilder::new(7);
    let always = plan.literal(true).expect("a node");
    plan.edge(Edge::base(0, 1, always, Citation(5))).expect("an edge");
    plan.finish().expect("a plan")
}

fn complete(plan: &Plan, roster: &[u8]) -> Vec<u8> {
    let mut case =
        CaseBuilder::new(plan, Frame { scope: 1, segment: 2 }, persons(roster)).expect("a case");
    case.roster_complete(Paper(9)).expect("evidence");
    case.finish().expect("a case").bytes().to_vec()
}

#[test]
fn the_example() {
    let plan = pair();
    let case = complete(&plan, &[0, 1, 2]);
    let answer = answer(plan.bytes(), &case).expect("an answer");
    assert_eq!(answer.worlds, 1);
    assert_eq!(answer.units(), [persons(&[0, 1]), persons(&[2])]);
    assert_eq!(answer.households(), answer.units());
    let line = answer.line(1).expect("a line");
    assert_eq!((line.kind, line.role), (LineKind::Decided, Role::Member));
    assert_eq!(line.others(), persons(&[0]));
    assert_eq!(line.citations().collect::<Vec<_>>(), [5]);
    assert_eq!(line.open_facts().count() + line.open_decisions().count(), 0);
    assert_eq!(answer.events, [Event::Frozen { edge: 0, left: 0, right: 1 }]);
    assert_eq!(show(plan.bytes(), &case, 0).as_ref(), Ok(&answer));
    let missing = show(plan.bytes(), &case, 1).expect_err("no second world");
    assert_eq!(missing.reason, Reason::NoSuchWorld);
}

#[test]
fn a_roster_that_is_not_complete() {
    let plan = pair();
    let case =
        CaseBuilder::new(&plan, Frame { scope: 1, segment: 2 }, persons(&[0, 1])).expect("a case");
    let case = case.finish().expect("a case");
    let answer = answer(plan.bytes(), case.bytes()).expect("an answer");
    assert!(answer.lines.iter().all(|line| line.kind == LineKind::RosterIncomplete));
    assert_eq!((answer.units().len(), answer.worlds), (0, 0));
}

/// An unresolved decision: both persons are open, and the decision is named.
#[test]
fn an_open_decision() {
    let mut plan = PlanBuilder::new(1);
    let always = plan.literal(true).expect("a node");
    let edge = plan.edge(Edge::combination(0, 1, always, Citation(1))).expect("an edge");
    let cut = Cut::new(persons(&[0]), always, Citation(2)).deciding(edge, Decision::Unresolved);
    let cut = plan.cut(cut).expect("a cut");
    let plan = plan.finish().expect("a plan");
    assert_eq!(plan.decisions(), [(cut, edge)]);
    let answer = answer(plan.bytes(), &complete(&plan, &[0, 1])).expect("an answer");
    for line in &answer.lines {
        assert_eq!(line.kind, LineKind::Membership);
        assert_eq!(line.open_decisions().collect::<Vec<_>>(), [0]);
    }
}

#[test]
fn a_default() {
    let mut plan = PlanBuilder::new(1);
    let wish = plan.boolean().expect("a fact");
    let wished = plan.holds(wish).expect("a node");
    let election = Election {
        fact: wish,
        actor: Actor(8),
        policy: Policy::DefaultTrue,
        citation: Citation(6),
    };
    plan.cut(Cut::new(persons(&[0]), wished, Citation(2)).elected(election)).expect("a cut");
    plan.status(Status::new(1, wished, Citation(3))).expect("a status");
    let plan = plan.finish().expect("a plan");
    let answer = answer(plan.bytes(), &complete(&plan, &[0, 1])).expect("an answer");
    let default = Event::Default { fact: 0, actor: 8, value: true, citation: 6 };
    assert!(answer.events.contains(&default));
    assert!(answer.events.contains(&Event::Excluded { status: 0, person: 1 }));
    assert_eq!(answer.line(1).map(|line| line.role), Some(Role::Excluded));
    assert_eq!(answer.units(), [persons(&[0]), persons(&[1])]);
    assert_eq!(answer.households(), [persons(&[0])]);
}

#[test]
fn short_buffers() {
    let plan = pair();
    let case = complete(&plan, &[0, 1, 2]);
    let refused = |lines: usize, events: usize| {
        let (mut lines, mut events) = (vec![170; lines], vec![170; events]);
        let number = answer_into(plan.bytes(), &case, &mut lines, &mut events)
            .map_or_else(|refusal| refusal.number(), |_| 0);
        let zero = |bytes: &[u8]| bytes.iter().all(|&byte| byte == 0);
        assert!(number == 0 || (zero(&lines) && zero(&events)));
        number
    };
    assert_eq!(refused(86, 12), 12);
    assert_eq!(refused(87, 11), 13);
    assert_eq!(refused(87, 12), 0);
    assert_eq!(refused(0, 0), 12);
}

/// Two stars whose leaves come and go: 2 × (2^12 − 13) components are left to discretion.
#[test]
fn more_events_than_the_lister_takes() {
    let mut plan = PlanBuilder::new(1);
    for leaf in 1..13 {
        let fact = plan.boolean().expect("a fact");
        let node = plan.holds(fact).expect("a node");
        plan.edge(Edge::base(0, leaf, node, Citation(1))).expect("an edge");
        plan.edge(Edge::base(20, 20 + leaf, node, Citation(1))).expect("an edge");
    }
    let plan = plan.finish().expect("a plan");
    let all: Vec<u8> = (0..33).collect();
    let case = complete(&plan, &all);
    let (mut lines, mut events) = ([0; LINES_LENGTH], vec![0; EVENTS_LENGTH]);
    let short = answer_into(plan.bytes(), &case, &mut lines, &mut events).map(|_| ());
    assert_eq!(short.map_err(|refusal| refusal.reason), Err(Reason::EventsDoNotFit));
    let listing = list(plan.bytes(), &case);
    assert_eq!((listing.text.as_str(), listing.refused), ("refused 13 0\n", true));
    let mut buffers = Buffers::new();
    let answered = buffers.answer(plan.bytes(), &case).expect("an answer");
    assert_eq!(answered.worlds(), 4096);
    assert_eq!(answered.events().count(), 24 + 2 * (4096 - 13));
    // The stack that is said to be enough is enough, with room for what a thread needs of its own.
    let mut events = vec![0; MOST_EVENTS_LENGTH];
    let call = || answer_into(plan.bytes(), &case, &mut [0; LINES_LENGTH], &mut events).is_ok();
    let answered = std::thread::scope(|scope| {
        let thread = std::thread::Builder::new().stack_size(STACK).spawn_scoped(scope, call);
        thread.expect("a thread").join()
    });
    assert!(answered.expect("no panic"));
    let small = pair();
    let small_case = complete(&small, &[0, 1]);
    let answered = buffers.answer(small.bytes(), &small_case).expect("an answer");
    assert_eq!((answered.lines().count(), answered.events().count()), (2, 1));
}

/// What a refusal says, of a plan and of a case.
#[test]
fn refusals_in_words() {
    let plan = pair();
    let case = complete(&plan, &[0, 1, 2]);
    let of_plan = check(&plan.bytes()[..9]).expect_err("cut short");
    let place = of_plan.place.expect("a record");
    assert_eq!((place.file, place.record, place.offset), (File::Plan, 2, 6));
    let text = of_plan.to_string();
    assert!(text.starts_with("refused 1: plan, record 2 (an edge, at byte 6): it is cut short"));
    let mut longer = case.clone();
    longer.extend([3, 1, 4]);
    let of_case = answer(plan.bytes(), &longer).expect_err("no such fact");
    assert_eq!(
        of_case.to_string(),
        "refused 4: case, record 1 (a boolean, at byte 16): it names no boolean fact of the plan"
    );
    let empty = check(&[]).expect_err("an empty file");
    assert_eq!(
        empty.to_string(),
        "refused 3: plan, record 0 (where the file ends, at byte 0): the first record must be a heading with all its required fields"
    );
    let of_plan = answer(&plan.bytes()[..9], &case).expect_err("cut short");
    assert_eq!(of_plan.place.map(|place| place.file), Some(File::Plan));
    let unknown = check(&[1, 1, 0, 9, 0]).expect_err("an unknown kind");
    assert!(unknown.to_string().contains("record 1 (of kind 9, which is unknown, at byte 3)"));
}

#[test]
fn too_many_worlds() {
    let mut plan = PlanBuilder::new(1);
    for person in 0..13 {
        let fact = plan.boolean().expect("a fact");
        let node = plan.holds(fact).expect("a node");
        plan.status(Status::new(person, node, Citation(0))).expect("a status");
    }
    let plan = plan.finish().expect("a plan");
    let all: Vec<u8> = (0..13).collect();
    let refusal = answer(plan.bytes(), &complete(&plan, &all)).expect_err("too many");
    assert_eq!(refusal.reason, Reason::TooManyWorlds { count: 8192, most: 4096 });
    assert_eq!(
        refusal.to_string(),
        "refused 11: more worlds than the heading allows: 8192, allowed 4096"
    );
    assert_eq!(refusal.record(), 0);
}

/// A plan that is read back has the same records, and handles for a case.
#[test]
fn a_plan_is_read_back() {
    let mut built = PlanBuilder::new(1);
    built.base_chain(Citation(3)).expect("a citation");
    let wish = built.boolean().expect("a fact");
    let lives = built.relation(4, &[0, 1]).expect("a fact");
    let wished = built.holds(wish).expect("a node");
    let live = built.holds(lives).expect("a node");
    let either = built.or(&[wished, live]).expect("a node");
    built.edge(Edge::base(0, 1, either, Citation(5)).unless(wished)).expect("an edge");
    let built = built.finish().expect("a plan");
    let read = Plan::read(built.bytes()).expect("a plan");
    assert_eq!(read.bytes(), built.bytes());
    assert_eq!(read.records().chain, Some(Citation(3)));
    assert_eq!(read.records().facts, built.records().facts);
    assert_eq!(read.records().edges.len(), 1);
    let mut case =
        CaseBuilder::new(&read, Frame { scope: 1, segment: 1 }, persons(&[0, 1])).expect("a case");
    case.roster_complete(Paper(0)).expect("evidence");
    case.observe(read.boolean(0).expect("a fact"), false, Paper(1)).expect("an observation");
    case.constrain(read.node(2).expect("a node")).expect("a constraint");
    let case = case.finish().expect("a case");
    let answer = answer(read.bytes(), case.bytes()).expect("an answer");
    assert_eq!(answer.line(0).map(|line| line.block), Some(persons(&[0, 1])));
}

/// Calls from several threads, each with a plan and a case of its own, give what they give alone.
#[test]
fn threads_are_independent() {
    let inputs: Vec<(Plan, Vec<u8>)> = (2..10)
        .map(|last| {
            let mut plan = PlanBuilder::new(last);
            let always = plan.literal(true).expect("a node");
            plan.base_chain(Citation(1)).expect("a citation");
            for left in 0..last - 1 {
                plan.edge(Edge::base(left, left + 1, always, Citation(left))).expect("an edge");
            }
            let plan = plan.finish().expect("a plan");
            let roster: Vec<u8> = (0..last).collect();
            let case = complete(&plan, &roster);
            (plan, case)
        })
        .collect();
    std::thread::scope(|scope| {
        for (plan, case) in &inputs {
            let wanted = answer(plan.bytes(), case).expect("an answer");
            scope.spawn(move || {
                for _ in 0..200 {
                    assert_eq!(answer(plan.bytes(), case).as_ref(), Ok(&wanted));
                }
            });
        }
    });
}

/// The rows of document 01, and those of refusals.
#[test]
fn the_text_of_the_lister() {
    let plan = pair();
    let case = complete(&plan, &[0, 1, 2]);
    let listing = list(plan.bytes(), &case);
    let rows = "person kind role block\n0 0 1 0,1\n1 0 1 0,1\n2 0 1 2\nunits 2\n";
    assert_eq!((listing.to_string().as_str(), listing.refused), (rows, false));
    assert_eq!(listing.households(), Some(2));
    let of_plan = list(&plan.bytes()[..9], &case);
    assert_eq!((of_plan.text.as_str(), of_plan.refused), ("refused 1 2\n", true));
    assert_eq!(of_plan.households(), None);
    let of_case = list(plan.bytes(), &[]);
    assert_eq!((of_case.text.as_str(), of_case.refused), ("refused 3 0\n", true));
    let open =
        CaseBuilder::new(&plan, Frame { scope: 1, segment: 2 }, persons(&[0, 1])).expect("a case");
    let open = list(plan.bytes(), open.finish().expect("a case").bytes());
    assert_eq!(open.text, "person kind role block\n0 5 0 -\n1 5 0 -\nunits 0\n");
}

/// Everybody has the longest row: 64 persons in one block.
#[test]
fn the_longest_rows() {
    let mut plan = PlanBuilder::new(7);
    let always = plan.literal(true).expect("a node");
    plan.base_chain(Citation(1)).expect("a citation");
    for left in 0..63 {
        plan.edge(Edge::base(left, left + 1, always, Citation(5))).expect("an edge");
    }
    let plan = plan.finish().expect("a plan");
    let everybody: Vec<u8> = (0..64).collect();
    let listing = list(plan.bytes(), &complete(&plan, &everybody));
    assert!(listing.text.len() <= TEXT_LENGTH && listing.text.ends_with("62,63\nunits 1\n"));
}

/// An edge joins 0 and 1, a relation that 1's status uses joins 1 and 60, who is not on the roster, a fact that two statuses use joins 2 and 3, an
/// unresolved decision joins a cut's member with an edge's ends; 9 stands alone, and so does whoever is named by what no rule uses.
#[test]
fn circles() {
    let mut plan = PlanBuilder::new(1);
    let always = plan.literal(true).expect("a node");
    let lives = plan.relation(4, &[1, 60]).expect("a fact");
    plan.relation(4, &[9, 61]).expect("a fact");
    let wish = plan.boolean().expect("a fact");
    let (live, wished) = (plan.holds(lives).expect("a node"), plan.holds(wish).expect("a node"));
    plan.edge(Edge::base(0, 1, always, Citation(1))).expect("an edge");
    let edge = plan.edge(Edge::combination(4, 5, always, Citation(1))).expect("an edge");
    let cut = Cut::new(persons(&[4, 6]), always, Citation(2)).deciding(edge, Decision::Unresolved);
    plan.cut(cut).expect("a cut");
    plan.status(Status::new(1, live, Citation(0))).expect("a status");
    plan.status(Status::new(2, wished, Citation(0))).expect("a status");
    plan.status(Status::new(3, wished, Citation(0))).expect("a status");
    let plan = plan.finish().expect("a plan");
    let mut case = complete(&plan, &[0, 1, 2, 3, 4, 5, 6, 9]);
    let of = |person: u8, case: &[u8]| circle(plan.bytes(), case, person);
    let wanted: [&[u8]; 5] = [&[0, 1, 60], &[2, 3], &[4, 5, 6], &[9], &[61]];
    for persons in wanted {
        let wanted = Some(Persons::of(persons).expect("persons"));
        assert!(persons.iter().all(|&person| of(person, &case) == wanted), "{persons:?}");
    }
    assert!((64..=255).all(|person| of(person, &case).is_none()));
    assert_eq!(circle(&plan.bytes()[..9], &case, 0), None);
    assert_eq!(of(0, &case[..9]), None);
    // Person 0 off the roster: refusal 9, and the circle that there was.
    case[5] -= 1;
    let refusal = answer(plan.bytes(), &case).expect_err("off the roster");
    assert_eq!((refusal.reason, of(1, &case)), (Reason::Heading, Some(persons(&[0, 1, 60]))));
}
