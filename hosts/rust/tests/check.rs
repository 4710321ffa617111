//! lukhveri check.

mod folder;
mod program;

use folder::Folder;
use program::json;
use program::{EXAMPLES, example, example_file, run};

#[test]
fn the_examples_are_accepted() {
    for name in EXAMPLES {
        let plan = example(name).join("plan.bin");
        let said = run(&["check".as_ref(), plan.as_os_str()]);
        assert_eq!((said.err.as_str(), said.status), ("", Some(0)), "{name}");
        assert!(said.out.starts_with("The plan is accepted. It has\n"), "{said:?}");
    }
}

#[test]
fn the_counts() {
    let said = run(&["check", "examples/kitchen/plan.bin"]);
    let counts = "The plan is accepted. It has
    3 facts: 2 boolean, 1 of relations
    4 nodes
    3 edges: 1 Base, 2 Combination
    2 cuts, 1 unresolved decision
    0 attachments
    0 bars
    0 statuses
    persons whom rules name: 0,1,2,3,4
";
    assert!(said.out.starts_with(counts), "{}", said.out);
    let said = run(&["check", "examples/kitchen/plan.bin", "--json"]);
    let object = json::read(&said.out);
    assert_eq!(object.at("accepted"), &json::Value::Bool(true));
    assert_eq!(object.at("counts").at("combination_edges").number(), 2);
    assert_eq!(object.at("counts").at("unresolved_decisions").number(), 1);
    assert_eq!(object.at("counts").at("persons").list().len(), 5);
    object.at("warnings").list();
}

#[test]
fn a_refusal_says_what_would_mend_it() {
    let folder = Folder::new("check-refused");
    let mut plan = example_file("club", "plan.bin");
    let last = plan.len() - 1;
    plan[last] = 64;
    folder.write("plan.bin", &plan);
    let path = folder.path().join("plan.bin");
    let path = path.to_str().expect("a path");
    let said = run(&["check", path]);
    assert_eq!(said.status, Some(1));
    assert!(said.out.starts_with("Refused 1: plan, record "), "{}", said.out);
    assert!(said.out.contains(": its citation has 64, outside 0 to 63.\n"));
    assert!(said.out.contains("\nWhat would mend it: "), "{}", said.out);
    assert!(said.err.starts_with(&format!("lukhveri: {path}: refused 1, record ")), "{said:?}");
    let said = run(&["check", "--json", path]);
    assert_eq!(said.status, Some(1));
    let refusal = json::read(&said.out).at("refusal").clone();
    assert_eq!((refusal.at("number").number(), refusal.at("file").text()), (1, "plan"));
    assert_eq!(refusal.at("finding").text(), "its citation has 64, outside 0 to 63");
    assert!(!refusal.at("remedy").text().is_empty());
}

#[test]
fn files_that_are_no_plan() {
    let said = run(&["check", "examples/kitchen/case.bin"]);
    let hint = "lukhveri: examples/kitchen/case.bin: this reads like a case; a plan is wanted\n";
    assert!(said.status == Some(1) && said.err.ends_with(hint), "{said:?}");
    run(&["check", "nowhere.bin"]).is_trouble("nowhere.bin: there is no such file");
    let said = run(&["check", "examples/kitchen"]);
    said.is_trouble(
        "examples/kitchen: this is a folder; a plan is wanted, such as examples/kitchen/plan.bin",
    );
    let folder = Folder::new("check-broken");
    folder.write("empty.bin", &[]);
    let path = folder.path().join("empty.bin");
    let said = run(&["check".as_ref(), path.as_os_str()]);
    assert_eq!(said.status, Some(1));
    assert!(said.out.starts_with("Refused 3: plan, record 0 (where the file ends, at byte 0)"));
}

/// A name for what is not there, and what is odd, are said and stop nothing.
#[test]
fn warnings() {
    let folder = Folder::new("check-warnings");
    let path = folder.path().join("plan.bin");
    folder.write("plan.bin", &[1, 1, 1, 2, 0, 3, 1, 0, 4, 15, 2, 2, 0, 5]);
    folder.write("names.txt", b"person 2 Vera\nfact 3 what?\n");
    let said = run(&["check".as_ref(), path.as_os_str()]);
    assert_eq!(said.status, Some(0), "{said:?}");
    assert!(said.err.contains("names.txt: warning: line 2: fact 3 is named what?"), "{said:?}");
    assert!(said.out.contains(" warnings:\n    ") && said.out.contains("Vera"), "{said:?}");
    let said = run(&["check".as_ref(), path.as_os_str(), "--json".as_ref()]);
    let warnings = json::read(&said.out).at("warnings").clone();
    assert!(warnings.list().iter().any(|it| it.at("code").text() == "self-edge"), "{said:?}");
}

/// Names stand in words alone: a fault in them is said and stops nothing.
#[test]
fn faulty_names_beside_a_plan() {
    let folder = Folder::new("check-names");
    let path = folder.path().join("plan.bin");
    folder.write("plan.bin", &example_file("kitchen", "plan.bin")[..6]);
    folder.write("names.txt", b"person x Anna\n");
    let said = run(&["check".as_ref(), path.as_os_str()]);
    assert_eq!(said.status, Some(1));
    assert!(said.err.contains("names.txt: line 1: 'x' is no number of a person"), "{said:?}");
    assert!(said.out.starts_with("Refused "), "{said:?}");
}

/// A file is read no further than a plan can be long.
#[test]
fn a_huge_file() {
    let folder = Folder::new("check-huge");
    folder.write("plan.bin", &example_file("kitchen", "plan.bin"));
    let path = folder.path().join("plan.bin");
    let file = std::fs::File::options().write(true).open(&path).expect("a file");
    file.set_len(1 << 36).expect("a file with a hole");
    let start = std::time::Instant::now();
    let said = run(&["check".as_ref(), path.as_os_str()]);
    assert!(start.elapsed().as_secs() < 5);
    assert_eq!(said.status, Some(1));
    assert!(said.out.contains("there is no kind 0"), "{}", said.out);
}

/// Damaged bytes are accepted or refused, and never more.
#[test]
fn damaged_plans() {
    let folder = Folder::new("check-damaged");
    let plan = example_file("kitchen", "plan.bin");
    let path = folder.path().join("plan.bin");
    for at in 0..plan.len() {
        let mut damaged = plan.clone();
        damaged[at] ^= 0x55;
        for bytes in [&damaged[..], &plan[..at]] {
            folder.write("plan.bin", bytes);
            let said = run(&["check".as_ref(), path.as_os_str()]);
            assert!(matches!(said.status, Some(0 | 1)), "{said:?}");
            assert!(!said.out.is_empty() && said.err.lines().count() <= 1, "{said:?}");
        }
    }
}
