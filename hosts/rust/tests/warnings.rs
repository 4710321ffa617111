//! What is accepted and seldom meant.

use lukhveri::names::Names;
use lukhveri::{Citation, Decision, Precedence};
use lukhveri::{Cut, CutId, Edge, Node, Persons, Plan, PlanBuilder, Rule, Status, Warning};

fn bytes(hex: &str) -> Vec<u8> {
    let digits: Vec<u32> = hex.chars().filter_map(|digit| digit.to_digit(16)).collect();
    digits.chunks(2).map(|pair| (pair[0] * 16 + pair[1]) as u8).collect()
}

fn warnings(hex: &str) -> Vec<Warning> {
    Plan::read(&bytes(hex)).expect("an accepted plan").warnings()
}

fn persons(numbers: &[u8]) -> Persons {
    Persons::of(numbers).expect("persons")
}

/// The bytes of a row of docs/DIFFERENCES.md; `2×` repeats the piece that it stands before.
fn row(name: &str) -> String {
    let path = concat!(env!("CARGO_MANIFEST_DIR"), "/../../docs/DIFFERENCES.md");
    let page = std::fs::read_to_string(path).expect("the page");
    let row = page.lines().find(|line| line.starts_with(&format!("| {name} |"))).expect(name);
    let code = row.split('`').nth(1).expect("bytes");
    let pieces = code.split(' ').map(|piece| match piece.split_once('×') {
        None => piece.to_string(),
        Some((count, piece)) => piece.repeat(count.parse().expect("a count")),
    });
    pieces.collect()
}

/// The whole list for each row, so that nothing else is warned of.
#[test]
fn every_row_of_the_differences() {
    let cut = Rule::Cut(0);
    let rows: [(&str, Vec<Warning>); 16] = [
        ("B1", vec![Warning::SelfEdge { edge: 0, person: 0 }]),
        ("B2", vec![Warning::EmptyCut { cut: 0 }]),
        ("B3", vec![Warning::EmptyBar { bar: 0 }]),
        ("B4", vec![Warning::EmptyAttachment { attachment: 0 }]),
        ("B5", vec![Warning::AnchorAmongMembers { attachment: 0, anchor: 0 }]),
        ("B6", vec![Warning::SharedMembers { earlier: 0, later: 1, persons: persons(&[0]) }]),
        ("B7", vec![Warning::AnchorMoved { attachment: 0, anchor: 1, mover: 1 }]),
        ("B8", vec![Warning::OtherActor { attachment: 0, actor: 1, elector: 2 }]),
        ("B9", vec![Warning::ElectionUnused { rule: cut, fact: 0 }]),
        ("B10", vec![Warning::ElectionUnused { rule: Rule::Attachment(0), fact: 0 }]),
        ("B11", vec![Warning::BaseEdgeDecided { cut: 0, edge: 0, unresolved: false }]),
        ("B12", vec![Warning::PrecedesItself { cut: 0 }]),
        ("B13", vec![Warning::PrecedenceCircle { cuts: vec![0, 1] }]),
        ("B14", vec![Warning::PrecedenceTwice { cut: 0, preceded: 1 }]),
        ("B15", vec![Warning::DecisionsDisagree { earlier: 0, later: 1, edge: 0 }]),
        ("B16", vec![]),
    ];
    for (name, wanted) in rows {
        assert_eq!(warnings(&row(name)), wanted, "{name}");
    }
}

#[test]
fn warnings_in_words() {
    let names = Names::read("person 0 Ana\nattachment 1 the move\ncut 0 the wish\nfact 0 asked\n")
        .expect("names");
    let says = |name: &str| warnings(&row(name))[0].in_words(&names);
    assert_eq!(
        says("B1"),
        "edge 0 has person 0 (Ana) at both ends, so that it joins nobody: write the other end, or take it out"
    );
    assert_eq!(
        says("B2"),
        "cut 0 (the wish) has no members, so that it sets nobody apart: give it members, or take it out"
    );
    assert_eq!(
        says("B6"),
        "attachment 0 and attachment 1 (the move) both move person 0 (Ana): where both hold, the later one acts last; make their conditions exclude each other, unless the order is meant"
    );
    assert_eq!(
        says("B9"),
        "the election of cut 0 (the wish) is on fact 0 (asked), which its condition does not use, so that electing does not make it hold: use the fact in the condition, or elect by one that it uses"
    );
    let all = (1..=15).flat_map(|number| warnings(&row(&format!("B{number}"))));
    for warning in all {
        let (words, numbers) = (warning.in_words(&names), warning.to_string());
        assert!(words.len() > 30 && !numbers.contains("Ana"), "{warning:?}");
        assert!(words.starts_with(|letter: char| letter.is_lowercase()) && !words.ends_with('.'));
    }
}

#[test]
fn records_and_codes() {
    let plan = Plan::read(&bytes(&row("B15"))).expect("a plan");
    let warning = &plan.warnings()[0];
    assert_eq!((warning.record(&plan), warning.subject()), (4, ("cut", 1)));
    assert_eq!(warning.code(), "decisions-disagree");
}

#[test]
fn what_nothing_uses() {
    let mut plan = PlanBuilder::new(1);
    let used = plan.boolean().expect("a fact");
    let asked = plan.boolean().expect("a fact");
    plan.boolean().expect("a fact");
    let used = plan.holds(used).expect("a node");
    let not = plan.not(used).expect("a node");
    let asked = plan.holds(asked).expect("a node");
    plan.and(&[asked]).expect("a node");
    plan.status(Status::new(0, not, Citation(0))).expect("a status");
    let plan = plan.finish().expect("a plan");
    let found = plan.warnings();
    assert_eq!(
        found,
        [
            Warning::UnusedFact { fact: 1, asked: true },
            Warning::UnusedFact { fact: 2, asked: false },
            Warning::UnusedNode { node: 3 },
        ]
    );
    assert_eq!(
        found[0].to_string(),
        "no rule uses fact 1, only a constraint of a case can: take it out if none does"
    );
    assert_eq!(found[1].record(&plan), 3);
    let mut plan = PlanBuilder::reopen(&plan);
    assert_eq!(plan.remove_unused(), 4);
    assert_eq!(plan.finish().expect("a plan").warnings(), []);
}

/// A defeater uses its facts, and a relation that was given late has a low number.
#[test]
fn defeaters_use_facts() {
    let mut plan = PlanBuilder::new(1);
    let late = plan.relation(9, &[1]).expect("a fact");
    let early = plan.relation(1, &[1]).expect("a fact");
    let holds = plan.holds(late).expect("a node");
    let always = plan.literal(true).expect("a node");
    plan.edge(Edge::base(0, 1, always, Citation(0)).unless(holds)).expect("an edge");
    let plan = plan.finish().expect("a plan");
    assert_eq!(plan.fact_number(early), Some(0));
    assert_eq!(plan.warnings(), [Warning::UnusedFact { fact: 0, asked: false }]);
}

#[test]
fn conditions_that_never_hold() {
    let mut plan = PlanBuilder::new(1);
    let facts: Vec<_> = (0..6).map(|_| plan.boolean().expect("a fact")).collect();
    let nodes: Vec<_> = facts.iter().map(|fact| plan.holds(*fact).expect("a node")).collect();
    let not = plan.not(nodes[0]).expect("a node");
    let both = plan.and(&[nodes[0], not]).expect("a node");
    let either = plan.or(&[nodes[0], not]).expect("a node");
    let some = plan.or(&nodes[1..]).expect("a node");
    let none = plan.not(some).expect("a node");
    let deep = plan.and(&[some, none, either]).expect("a node");
    plan.edge(Edge::base(0, 1, both, Citation(0))).expect("an edge");
    plan.edge(Edge::base(0, 1, either, Citation(0))).expect("an edge");
    plan.edge(Edge::base(0, 1, nodes[1], Citation(0)).unless(some)).expect("an edge");
    plan.edge(Edge::base(0, 1, some, Citation(0)).unless(nodes[1])).expect("an edge");
    plan.cut(Cut::new(persons(&[0]), deep, Citation(0))).expect("a cut");
    plan.status(Status::new(0, none, Citation(0))).expect("a status");
    let found = plan.finish().expect("a plan").warnings();
    assert_eq!(
        found,
        [
            Warning::NeverHolds { rule: Rule::Edge(0), defeaters: false },
            Warning::NeverHolds { rule: Rule::Edge(2), defeaters: true },
            Warning::NeverHolds { rule: Rule::Cut(0), defeaters: false },
        ]
    );
    assert!(found[1].to_string().contains("a defeater is true wherever its condition is"));
}

/// Every assignment of a few facts to random conditions says the same as the search.
#[test]
fn the_search_is_right_on_random_conditions() {
    let mut state = 7u64;
    let mut below = |bound: usize| {
        state = state.wrapping_mul(6364136223846793005).wrapping_add(1442695040888963407);
        (state >> 33) as usize % bound
    };
    let mut never = 0;
    for _ in 0..3_000 {
        let mut plan = PlanBuilder::new(1);
        let facts: Vec<_> = (0..4).map(|_| plan.boolean().expect("a fact")).collect();
        let mut nodes: Vec<_> =
            facts.iter().map(|fact| plan.holds(*fact).expect("a node")).collect();
        for _ in 0..12 {
            let children: Vec<_> = (0..1 + below(3)).map(|_| nodes[below(nodes.len())]).collect();
            let node = match below(3) {
                0 => Node::And(children),
                1 => Node::Or(children),
                _ => Node::Not(children[0]),
            };
            nodes.push(plan.node(node).expect("a node"));
        }
        let (condition, defeater) = (nodes[nodes.len() - 1], nodes[nodes.len() - 2]);
        plan.edge(Edge::base(0, 1, condition, Citation(0)).unless(defeater)).expect("an edge");
        let plan = plan.finish().expect("a plan");
        let holds = (0..16).any(|world: u32| {
            let values = values(&plan, world);
            values[values.len() - 1] && !values[values.len() - 2]
        });
        let warned = plan.warnings().iter().any(|warning| warning.code() == "never-holds");
        assert_eq!(warned, !holds);
        never += u32::from(warned);
    }
    assert!((300..2_700).contains(&never), "{never}");
}

/// The value of each node; bit n of the world is fact n.
fn values(plan: &Plan, world: u32) -> Vec<bool> {
    let mut values: Vec<bool> = Vec::new();
    for node in &plan.records().nodes {
        let of =
            |node: &lukhveri::NodeId| values[usize::from(plan.node_number(*node).expect("a node"))];
        let value = match node {
            Node::Literal(value) => *value,
            Node::Fact(fact) => world >> plan.fact_number(*fact).expect("a fact") & 1 == 1,
            Node::And(children) => children.iter().all(of),
            Node::Or(children) => children.iter().any(of),
            Node::Not(child) => !of(child),
        };
        values.push(value);
    }
    values
}

/// A condition that never holds: one pigeon more than there are holes, each in a hole, and no two in one.
fn pigeons(holes: usize) -> Vec<Warning> {
    let mut plan = PlanBuilder::new(1);
    let facts: Vec<_> = (0..holes * (holes + 1)).map(|_| plan.boolean().expect("a fact")).collect();
    let sits: Vec<_> = facts.iter().map(|fact| plan.holds(*fact).expect("a node")).collect();
    let mut all: Vec<_> = sits.chunks(holes).map(|one| plan.or(one).expect("a node")).collect();
    for hole in 0..holes {
        let pairs = (0..=holes).flat_map(|first| (0..first).map(move |second| [first, second]));
        let pairs = pairs.map(|pair| pair.map(|pigeon| sits[pigeon * holes + hole]));
        let clashes: Vec<_> = pairs.map(|pair| plan.and(&pair).expect("a node")).collect();
        let parts: Vec<_> = clashes.chunks(16).map(|part| plan.or(part).expect("a node")).collect();
        let clash = plan.or(&parts).expect("a node");
        all.push(plan.not(clash).expect("a node"));
    }
    let condition = plan.and(&all).expect("a node");
    // Defeaters that differ, so that each edge is a question of its own.
    for defeater in sits.iter().cycle().take(64) {
        plan.edge(Edge::base(0, 1, condition, Citation(0)).unless(*defeater)).expect("an edge");
    }
    plan.finish().expect("a plan").warnings()
}

/// What takes too much work is not said, and soon.
#[test]
fn the_work_has_a_bound() {
    let never =
        |found: Vec<Warning>| found.iter().filter(|one| one.code() == "never-holds").count();
    assert_eq!(never(pigeons(3)), 64);
    let start = std::time::Instant::now();
    assert_eq!(never(pigeons(6)), 0);
    assert!(start.elapsed().as_millis() < 1_000);
}

#[test]
fn longer_circles_and_repeats() {
    let mut plan = PlanBuilder::new(1);
    let always = plan.literal(true).expect("a node");
    let cuts: Vec<CutId> = (0..5)
        .map(|person| plan.cut(Cut::new(persons(&[person]), always, Citation(0))).expect("a cut"))
        .collect();
    for (from, to) in [(1, 2), (2, 3), (3, 1), (3, 4), (0, 1)] {
        plan.precede(Precedence { cut: cuts[from], precedes: cuts[to] }).expect("a precedence");
    }
    let found = plan.finish().expect("a plan").warnings();
    assert_eq!(found, [Warning::PrecedenceCircle { cuts: vec![1, 2, 3] }]);
    assert_eq!(
        found[0].to_string(),
        "cut 1, cut 2 and cut 3 precede each other in a circle, so that of two that overlap neither gives way: take one precedence out"
    );
}

#[test]
fn cuts_in_order_may_disagree() {
    let mut plan = PlanBuilder::new(1);
    let always = plan.literal(true).expect("a node");
    let edge = plan.edge(Edge::combination(0, 1, always, Citation(0))).expect("an edge");
    let cut = |decision| Cut::new(persons(&[0]), always, Citation(0)).deciding(edge, decision);
    let first = plan.cut(cut(Decision::Blocked)).expect("a cut");
    let second = plan.cut(cut(Decision::Overrides)).expect("a cut");
    assert_eq!(plan.finish().expect("a plan").warnings().len(), 1);
    plan.precede(Precedence { cut: second, precedes: first }).expect("a precedence");
    assert_eq!(plan.finish().expect("a plan").warnings(), []);
}

#[test]
fn the_examples_have_no_warnings() {
    for folder in ["01", "nursery", "kitchen", "club", "allotments"] {
        let path = format!("{}/../../examples/{folder}/plan.bin", env!("CARGO_MANIFEST_DIR"));
        let plan = Plan::read(&std::fs::read(path).expect("a plan")).expect("a plan");
        assert_eq!(plan.warnings(), [], "{folder}");
    }
}
