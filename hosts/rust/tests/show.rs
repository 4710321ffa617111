//! lukhveri show.

mod folder;
mod program;

use std::collections::BTreeMap;

use folder::Folder;
use lukhveri::{CaseRecords, Fact, Line, Plan};
use program::json::{self, Value};
use program::{EXAMPLES, Random, example, example_file, on, run};

#[test]
fn a_world_of_the_kitchen() {
    let said = on("show", &example("kitchen"), &["3"]);
    assert_eq!((said.err.as_str(), said.status), ("", Some(0)));
    let wanted = [
        "World 3 of 4, counted from 0.\n",
        "\nWhat makes it:\n  The decision \"does Nana's wish outweigh the one pot?\": yes; if the edge holds, the cut overrides it\n  \"Eka and Nana eat from one pot\": yes\n",
        "\nWhat everyone is in it:\n",
        "\nWhat happens in it:\n",
    ];
    for part in wanted {
        assert!(said.out.contains(part), "{part} is not in\n{}", said.out);
    }
    // The decision says no, and still the cut is made: the edge does not hold.
    let said = on("show", &example("kitchen"), &["0"]);
    assert!(said.out.contains("one pot?\": no; if the edge holds, it blocks the cut\n"));
    assert!(said.out.contains("The cut \"Nana's wish\" is made;"));
}

#[test]
fn every_world_of_the_examples() {
    for name in EXAMPLES {
        let first = json::read(&on("show", &example(name), &["0", "--json"]).out);
        for world in 0..first.at("worlds").number() {
            let said = on("show", &example(name), &[&world.to_string()]);
            assert_eq!((said.err.as_str(), said.status), ("", Some(0)), "{name}");
        }
    }
    let said = on("show", &example("01"), &["0"]);
    assert!(said.out.starts_with("World 0, the only one.\n\nWhat makes it: nothing is open.\n"));
}

#[test]
fn worlds_that_are_none() {
    let said = on("show", &example("kitchen"), &["4"]);
    assert_eq!(said.status, Some(1));
    assert!(said.out.starts_with("Refused 14: "), "{}", said.out);
    assert!(
        said.out
            .contains("mend it: ask for a world below the count of worlds; where there are none, ")
    );
    assert_eq!(said.err, "lukhveri: examples/kitchen/case.bin: refused 14\n");
    let said = on("show", &example("kitchen"), &["4", "--json"]);
    assert_eq!(json::read(&said.out).at("refusal").at("number").number(), 14);
    for word in ["-1", "x", "1.5", "18446744073709551616"] {
        let said = run(&["show", "examples/kitchen", "--", word]);
        said.is_trouble(&format!("'{word}' is no number of a world: 0, 1 ..."));
    }
    let most = on("show", &example("kitchen"), &["18446744073709551615"]);
    assert_eq!(most.status, Some(1));
    run(&["show", "nowhere", "0"]).is_trouble("nowhere/plan.bin: there is no such file");
}

/// Values of facts, and the number that the decisions' values make, the first highest.
fn values(object: &Value) -> (BTreeMap<u8, bool>, u64) {
    let (mut facts, mut decisions) = (BTreeMap::new(), 0);
    for value in object.at("values").list() {
        let number = value.at("number").number() as u8;
        let holds = value.at("value") == &Value::Bool(true);
        match value.at("kind").text() {
            "fact" => assert_eq!(facts.insert(number, holds), None),
            _ => decisions = decisions * 2 + u64::from(holds),
        }
    }
    (facts, decisions)
}

/// The case with these facts known: all its relations stand in families of the roster's scope.
fn settled(plan: &Plan, case: &[u8], facts: &BTreeMap<u8, bool>) -> Vec<u8> {
    let told = CaseRecords::read(case).expect("a case");
    let mut bytes = case[..16].to_vec();
    let mut families: BTreeMap<u8, Option<u8>> =
        told.families.iter().map(|family| (family.number, family.complete)).collect();
    for fact in facts.keys() {
        if let Some((_, Fact::Relation { family, .. })) = plan.fact(*fact) {
            families.entry(*family).or_default();
        }
    }
    for (number, complete) in families {
        bytes.extend([2, 3 | u8::from(complete.is_some()) << 2, number, told.scope]);
        bytes.extend(complete);
    }
    for record in told.booleans.iter().filter(|record| !facts.contains_key(&record.fact)) {
        bytes.extend([3, 5, record.fact, record.observations.len() as u8]);
        bytes.extend(record.observations.iter().flat_map(|(value, by)| [u8::from(*value), *by]));
    }
    let is_boolean = |fact: &u8| plan.boolean(*fact).is_some();
    for (fact, value) in facts.iter().filter(|(fact, _)| is_boolean(fact)) {
        bytes.extend([3, 5, *fact, 1, u8::from(*value), 0]);
    }
    for record in told.relations.iter().filter(|record| !facts.contains_key(&record.fact)) {
        bytes.extend([4, 7, record.fact, u8::from(record.value), record.evidence]);
    }
    for (fact, value) in facts.iter().filter(|(fact, _)| !is_boolean(fact)) {
        bytes.extend([4, 7, *fact, u8::from(*value), 0]);
    }
    bytes.extend(told.constraints.iter().flat_map(|node| [5, 1, *node]));
    bytes
}

/// The case in which the values are known shows the same lines.
fn same_when_settled(plan: &[u8], case: &[u8], world: u64, object: &Value) {
    let read = Plan::read(plan).expect("a plan");
    let (facts, decisions) = values(object);
    let known = settled(&read, case, &facts);
    let lines = |case: &[u8], world| -> Vec<Line> {
        let shown = lukhveri::show(plan, case, world);
        shown.unwrap_or_else(|refusal| panic!("{refusal}: {plan:x?} {case:x?}")).lines
    };
    assert_eq!(lines(case, world), lines(&known, decisions), "{plan:x?} {case:x?} {world}");
}

#[test]
fn the_values_make_the_world() {
    for name in EXAMPLES {
        let (plan, case) = (example_file(name, "plan.bin"), example_file(name, "case.bin"));
        let first = json::read(&on("show", &example(name), &["0", "--json"]).out);
        for world in 0..first.at("worlds").number() {
            let shown = on("show", &example(name), &["--json", &world.to_string()]).out;
            same_when_settled(&plan, &case, world, &json::read(&shown));
        }
    }
}

/// A plan of five boolean facts and five relations, edges and cuts that hang on them, and decisions.
fn random_plan(random: &mut Random) -> Vec<u8> {
    let mut plan = vec![1, 3, 1, 9];
    plan.extend([2, 0].repeat(5));
    for number in 0..5 {
        plan.extend([2, 3, number / 2, 2, number, number + 1]);
    }
    for fact in 0..10 {
        plan.extend([3, 2, fact]);
    }
    for at in 10..16u64 {
        let (left, right) = (random.below(at) as u8, random.below(at) as u8);
        match random.below(3) {
            0 => plan.extend([3, 4, 2, left, right]),
            1 => plan.extend([3, 8, 2, left, right]),
            _ => plan.extend([3, 16, left]),
        }
    }
    for person in 0..7 {
        plan.extend([4, 47, person, person + 1, random.below(16) as u8, 1]);
    }
    for cut in 0..2u8 {
        plan.extend([5, 23, 3 << (cut * 4), 0, 0, 0, 0, 0, 0, 0, random.below(16) as u8, 2]);
        let decisions: Vec<u8> =
            (0..7).flat_map(|edge| [edge, if edge % 3 == 1 { 3 } else { 2 }]).collect();
        plan.push(7);
        plan.extend(decisions);
    }
    plan
}

/// What is told of some of the facts, and up to two constraints.
fn random_case(random: &mut Random) -> Vec<u8> {
    let mut case = vec![1, 127, 1, 1, 1, 255, 0, 0, 0, 0, 0, 0, 0, 0, 0, 16];
    for family in 0..random.below(4) as u8 {
        match random.below(3) {
            0 => case.extend([2, 3, family, 1]),
            1 => case.extend([2, 7, family, 1, 0]),
            _ => case.extend([2, 7, family, 2, 0]),
        }
    }
    let families = case.iter().skip(16).filter(|byte| **byte == 2).count();
    for fact in 0..5u8 {
        let value = random.below(2) as u8;
        match random.below(4) {
            0 => {}
            1 => case.extend([3, 5, fact, 1, value, 0]),
            2 => case.extend([3, 3, fact, 4]),
            _ => case.extend([3, 5, fact, 2, value, 0, random.below(2) as u8, 1]),
        }
    }
    if families > 0 {
        case.extend([4, 7, 5, random.below(2) as u8, 0, 4, 7, 6, random.below(2) as u8, 1]);
    }
    for _ in 0..random.below(3) {
        case.extend([5, 1, random.below(16) as u8]);
    }
    case
}

/// Random plans and cases: world numbers, constraints, conflicts, silence and families in and out of the case.
#[test]
fn the_values_make_random_worlds() {
    let (mut random, mut shown) = (Random(22), 0);
    let folder = Folder::new("show-random");
    for _ in 0..150 {
        let (plan, case) = (random_plan(&mut random), random_case(&mut random));
        folder.write("plan.bin", &plan);
        folder.write("case.bin", &case);
        let Ok(answer) = lukhveri::answer(&plan, &case) else {
            continue;
        };
        for _ in 0..answer.worlds.min(4) {
            let world = random.below(answer.worlds);
            let said = on("show", folder.path(), &["--json", &world.to_string()]);
            assert_eq!(said.status, Some(0), "{said:?}");
            same_when_settled(&plan, &case, world, &json::read(&said.out));
            shown += 1;
        }
    }
    assert!(shown > 100, "{shown} worlds");
}
