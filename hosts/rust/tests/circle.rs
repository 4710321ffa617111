//! lukhveri circle.

mod folder;
mod program;

use folder::Folder;
use program::json;
use program::{EXAMPLES, example, example_file, hex, on, run};

#[test]
fn a_circle_and_the_facts_that_touch_it() {
    let said = on("circle", &example("kitchen"), &["Nana"]);
    assert_eq!((said.err.as_str(), said.status), ("", Some(0)));
    let wanted = "The circle of Nana: Eka, Luka and Nana.

Facts that touch this circle:
  \"Nana asked to be counted apart\": the cut \"Nana's wish\" asks it.
  \"Eka and Nana eat from one pot\": it is about Eka and Nana; the edge \"the one pot\" asks it.
";
    assert_eq!(said.out, wanted);
    assert_eq!(said, on("circle", &example("kitchen"), &["2"]));
}

/// Persons of a circle have the same one.
#[test]
fn circles_are_shared() {
    for name in EXAMPLES {
        for person in 0..9 {
            let said = on("circle", &example(name), &["--json", &person.to_string()]);
            assert_eq!((said.err.as_str(), said.status), ("", Some(0)));
            let object = json::read(&said.out);
            let circle = object.at("circle");
            assert!(circle.list().iter().any(|it| it.at("person").number() == person));
            for other in circle.list() {
                let other = other.at("person").number().to_string();
                let theirs = on("circle", &example(name), &["--json", &other]);
                assert_eq!(json::read(&theirs.out).at("circle"), circle);
            }
        }
    }
}

/// Two chains that nothing connects; 6 belongs to the second.
#[test]
fn strangers_are_not_in_it() {
    let folder = Folder::new("circle-strangers");
    let plan = "010101030101040f00010001040f01020001040f03040001040f04050001042f05060002";
    folder.write("plan.bin", &hex(plan));
    folder.write("case.bin", &hex("017f0101017f00000000000000001000"));
    let said = on("circle", folder.path(), &["6"]);
    let wanted = "The circle of person 6: person 3, person 4, person 5 and person 6.\n\nNo fact touches this circle.\n";
    assert_eq!((said.out.as_str(), said.status), (wanted, Some(0)));
    let said = on("circle", folder.path(), &["63"]);
    assert!(said.out.starts_with("The circle of person 63: person 63 alone.\n"), "{}", said.out);
}

/// A constraint's facts touch the whole roster.
#[test]
fn a_constraint_joins_all() {
    let folder = Folder::new("circle-constraint");
    folder.write("plan.bin", &example_file("kitchen", "plan.bin"));
    let mut case = example_file("kitchen", "case.bin");
    let apart = on("circle", &example("kitchen"), &["--json", "3"]);
    assert_eq!(json::read(&apart.out).at("circle").list().len(), 2);
    case.extend([5, 1, 1]);
    folder.write("case.bin", &case);
    let said = on("circle", folder.path(), &["3"]);
    assert!(
        said.out.contains("constraint 0 of the case uses it, and so it touches the whole roster")
    );
    let said = on("circle", folder.path(), &["3", "--json"]);
    assert_eq!(json::read(&said.out).at("circle").list().len(), 5);
}

/// A case that has too many worlds has circles; one that cannot be read has none.
#[test]
fn refusals() {
    let folder = Folder::new("circle-refused");
    folder.write("plan.bin", &example_file("kitchen", "plan.bin"));
    let mut case = example_file("kitchen", "case.bin");
    case[14] = 0;
    case[15] = 0;
    folder.write("case.bin", &case);
    assert_eq!(on("list", folder.path(), &[]).out, "refused 11 0\n");
    assert_eq!(on("circle", folder.path(), &["0"]).status, Some(0));
    folder.write("case.bin", &case[..10]);
    let said = on("circle", folder.path(), &["0"]);
    assert_eq!(said.status, Some(1));
    assert!(said.out.starts_with("Refused 1: case, record 0"), "{}", said.out);
    let said = on("circle", folder.path(), &["0", "--json"]);
    assert_eq!(json::read(&said.out).at("refusal").at("number").number(), 1);
}

#[test]
fn persons_that_are_none() {
    run(&["circle", "examples/kitchen", "64"]).is_trouble("there is no person 64, only 0 to 63");
    run(&["circle", "examples/kitchen", "Otar"])
        .is_trouble("examples/kitchen/names.txt has no person 'Otar'");
    let folder = Folder::new("circle-unnamed");
    folder.write("plan.bin", &example_file("kitchen", "plan.bin"));
    folder.write("case.bin", &example_file("kitchen", "case.bin"));
    on("circle", folder.path(), &["Otar"]).is_trouble("names.txt: give a number, not 'Otar'");
    run(&["circle", "nowhere", "0"]).is_trouble("nowhere/plan.bin: there is no such file");
}
