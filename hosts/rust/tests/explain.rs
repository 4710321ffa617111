//! lukhveri explain: which paragraphs are printed and how. What they say is the library's.

mod folder;
mod program;
mod roster;

use folder::Folder;
use program::json::{self, Value};
use program::{EXAMPLES, example, example_file, on, run};
use roster::{roster, without_units};

const HEADING: &str =
    "For the officer: what follows belongs to all persons of the case and is not for families.";

#[test]
fn a_paragraph_for_each_person() {
    for name in EXAMPLES {
        let said = on("explain", &example(name), &[]);
        assert_eq!((said.err.as_str(), said.status), ("", Some(0)), "{name}");
        let lines = example_file(name, "printed.txt").iter().filter(|byte| **byte == b'\n').count();
        assert_eq!(said.out.split("\n\n").count(), lines - 2, "{}", said.out);
        assert!(!said.out.contains(HEADING));
    }
}

#[test]
fn one_person_by_number_or_name() {
    let all = on("explain", &example("kitchen"), &[]).out;
    let nana = on("explain", &example("kitchen"), &["--person", "Nana"]);
    assert_eq!((nana.err.as_str(), nana.status), ("", Some(0)));
    assert_eq!(all.split("\n\n").nth(2), nana.out.strip_suffix('\n'));
    assert_eq!(nana, on("explain", &example("kitchen"), &["--person=2"]));
    let said = on("explain", &example("kitchen"), &["--person", "Otar"]);
    said.is_trouble("names.txt has no person 'Otar'");
    let said = on("explain", &example("kitchen"), &["--person", "64"]);
    said.is_trouble("there is no person 64, only 0 to 63");
    let said = on("explain", &example("kitchen"), &["--person", "9"]);
    said.is_trouble("examples/kitchen/case.bin: person 9 is not on the roster");
}

#[test]
fn equal_names_want_a_number() {
    let folder = Folder::new("explain-equal");
    folder.write("plan.bin", &example_file("kitchen", "plan.bin"));
    folder.write("case.bin", &example_file("kitchen", "case.bin"));
    folder.write("names.txt", b"person 0 Nana\nperson 2 Nana\n");
    let said = on("explain", folder.path(), &["--person", "Nana"]);
    said.is_trouble("person 0 and person 2 are both called 'Nana': give a number");
    assert_eq!(on("explain", folder.path(), &["--person", "2"]).status, Some(0));
}

#[test]
fn what_belongs_to_all_stands_under_its_heading() {
    let family = on("explain", &example("club"), &["--person", "Otar"]).out;
    let both = on("explain", &example("club"), &["--person", "Otar", "--officer"]).out;
    let (before, after) = both.split_once(HEADING).expect("the heading");
    assert_eq!(before, family + "\n");
    assert!(after.starts_with("\n  ") && after.lines().count() > 2, "{after}");
}

/// The first lines of the officers' part of a roster: its counts, and what is said before the events.
fn officer(words: &str) -> Vec<String> {
    let folder = Folder::new("explain-households");
    let (plan, case) = roster(words);
    folder.write("plan.bin", &plan);
    folder.write("case.bin", &case);
    folder
        .write("names.txt", b"person 0 rezo\nperson 1 Nato\nperson 2 Nato\nperson 3 Otar; Soso\n");
    let (family, both) =
        (on("explain", folder.path(), &[]), on("explain", folder.path(), &["--officer"]));
    assert!(!family.out.contains("household"), "{}", family.out);
    let (paragraphs, after) = both.out.split_once(HEADING).expect("the heading");
    assert_eq!(paragraphs, family.out + "\n");
    let lines =
        after.lines().skip(1).map(|line| line.strip_prefix("  ").expect("indented").to_string());
    let said: Vec<String> = lines.take_while(|line| !line.contains("vents")).collect();
    let object = json::read(&on("explain", folder.path(), &["--officer", "--json"]).out);
    let listed = object.at("officer").list().iter().map(|line| line.text().to_string());
    assert_eq!(listed.take(said.len()).collect::<Vec<_>>(), said);
    said
}

/// Units that are no households are counted and named for officers; no paragraph speaks of them.
#[test]
fn units_that_are_no_households() {
    let nato = "Nato (person 1) and Nato (person 2)";
    for (words, counts, named) in [
        (
            "e ee eo b",
            "6 persons, 1 of them not decided; 4 units, 2 of them households; 2 worlds.",
            vec!["rezo", nato],
        ),
        (
            "m m m e",
            "4 persons, 0 of them not decided; 4 units, 3 of them households; 1 world.",
            vec!["Otar; Soso"],
        ),
        (
            "eee e",
            "4 persons, 0 of them not decided; 2 units, none of them a household; 1 world.",
            vec!["rezo, Nato (person 1) and Nato (person 2)", "Otar; Soso"],
        ),
        (
            "mm ee",
            "4 persons, 0 of them not decided; 2 units, 1 of them a household; 1 world.",
            vec!["Nato (person 2) and Otar; Soso"],
        ),
        (
            "e",
            "1 person, 0 of them not decided; 1 unit, which is no household; 1 world.",
            vec!["rezo"],
        ),
        ("me b o", "4 persons, 1 of them not decided; 3 units; 2 worlds.", vec![]),
    ] {
        let why =
            |unit| format!("The unit of {unit} is no household, as everybody in it is excluded.");
        let wanted: Vec<String> =
            [counts.to_string()].into_iter().chain(named.into_iter().map(why)).collect();
        assert_eq!(officer(words), wanted, "{words}");
    }
}

/// Kinds 5 and 6: there are no units, and nothing is said of households.
#[test]
fn rosters_without_units() {
    for (plan, case) in without_units("e ee m") {
        let folder = Folder::new("explain-no-units");
        folder.write("plan.bin", &plan);
        folder.write("case.bin", &case);
        let said = on("explain", folder.path(), &["--officer"]);
        assert!(
            said.out.contains("\n  4 persons, 4 of them not decided; 0 units; 0 worlds.\n"),
            "{}",
            said.out
        );
        assert!(!said.out.contains("household"), "{}", said.out);
    }
}

#[test]
fn as_json() {
    for name in EXAMPLES {
        let said = on("explain", &example(name), &["--json", "--officer"]);
        assert_eq!((said.err.as_str(), said.status), ("", Some(0)));
        let object = json::read(&said.out);
        assert!(!object.at("officer").list().is_empty());
        for person in object.at("persons").list() {
            assert!(!person.at("sentences").list().is_empty());
            assert!(person.at("name") == person.at("called"), "{person:?}");
        }
    }
    let said = on("explain", &example("kitchen"), &["--json", "--person", "Nana"]);
    let object = json::read(&said.out);
    assert_eq!(object.at("officer"), &Value::Null);
    let [nana] = object.at("persons").list() else {
        panic!("one person: {object:?}");
    };
    let numbers = ["person", "kind", "role"].map(|name| nana.at(name).number());
    assert_eq!(numbers, [2, 1, 0]);
    assert_eq!(nana.at("open_facts"), &Value::List(vec![Value::Number(2)]));
    assert_eq!(nana.at("open_decisions"), &Value::List(vec![Value::Number(0)]));
}

#[test]
fn a_refusal_says_what_would_mend_it() {
    let folder = Folder::new("explain-refused");
    folder.write("plan.bin", &example_file("kitchen", "plan.bin"));
    let mut case = example_file("kitchen", "case.bin");
    case[2] = 9;
    folder.write("case.bin", &case);
    let said = on("explain", folder.path(), &[]);
    assert_eq!(said.status, Some(1));
    assert!(said.out.starts_with("Refused 9: case, record 0 (the heading, at byte 0)"));
    assert!(said.out.contains(": its relation is 9, the plan's is 1.\n"));
    assert!(
        said.out.contains("\nWhat would mend it: compare the case's heading with the plan"),
        "{}",
        said.out
    );
    let path = folder.path().join("case.bin");
    assert_eq!(said.err, format!("lukhveri: {}: refused 9, record 0\n", path.display()));
    let said = on("explain", folder.path(), &["--json", "--officer"]);
    assert_eq!(said.status, Some(1));
    assert_eq!(json::read(&said.out).at("refusal").at("number").number(), 9);
}

#[test]
fn faulty_names() {
    let folder = Folder::new("explain-names");
    folder.write("plan.bin", &example_file("kitchen", "plan.bin"));
    folder.write("case.bin", &example_file("kitchen", "case.bin"));
    let says = |names: &[u8], part: &str| {
        folder.write("names.txt", names);
        on("explain", folder.path(), &[]).is_trouble(part);
    };
    says(b"person 0 Anna\nperson x Ben\n", "names.txt: line 2: 'x' is no number of a person");
    says(
        b"person 0 Anna\n\nperson 1 \xff\n",
        "names.txt: line 3 is no UTF-8 text; save the file as UTF-8",
    );
    says(&b"#\n".repeat(1 << 20), "names.txt: it is longer than 1048576 bytes");
    std::fs::remove_file(folder.path().join("names.txt")).expect("no names");
    assert_eq!(on("explain", folder.path(), &[]).status, Some(0));
    std::fs::create_dir(folder.path().join("names.txt")).expect("a folder");
    on("explain", folder.path(), &[]).is_trouble("names.txt: this is a folder, not a file");
}

#[test]
fn folders_that_are_none() {
    run(&["explain", "nowhere"]).is_trouble("nowhere/plan.bin: there is no such file");
    run(&["explain", "examples"]).is_trouble("examples/plan.bin: there is no such file");
}

/// Damaged bytes are answered or refused, by every command on a folder.
#[test]
fn damaged_cases() {
    let folder = Folder::new("explain-damaged");
    folder.write("plan.bin", &example_file("club", "plan.bin"));
    let case = example_file("club", "case.bin");
    let commands: [&[&str]; 4] =
        [&["list"], &["explain", "--officer"], &["show", "0"], &["circle", "0"]];
    for at in 0..case.len() {
        let mut damaged = case.clone();
        damaged[at] ^= 0x55;
        for bytes in [&damaged[..], &case[..at]] {
            folder.write("case.bin", bytes);
            for words in commands {
                let said = on(words[0], folder.path(), &words[1..]);
                assert!(matches!(said.status, Some(0 | 1)), "{words:?} {bytes:x?} {said:?}");
                assert!(!said.out.is_empty() && said.err.lines().count() <= 1, "{said:?}");
            }
        }
    }
}

fn bytes(text: &str) -> Vec<u8> {
    let pairs = text.as_bytes().chunks(2).map(|pair| std::str::from_utf8(pair).expect("digits"));
    pairs.map(|pair| u8::from_str_radix(pair, 16).expect("a byte")).collect()
}

/// A folder with a plan and a case of hexadecimal digits.
fn folder(name: &str, plan: &str, case: &str) -> Folder {
    let folder = Folder::new(name);
    folder.write("plan.bin", &bytes(plan));
    folder.write("case.bin", &bytes(case));
    folder
}

/// Persons 0 to 2 are one chain, 3 to 5 another, and 6 is joined to 5: nothing connects 6 with the first.
#[test]
fn no_stranger_is_named() {
    let plan = "010101030101040f00010001040f01020001040f03040001040f04050001042f05060002";
    let folder = folder("explain-strangers", plan, "017f0101017f00000000000000001000");
    let said = on("explain", folder.path(), &["--person", "6"]);
    assert_eq!(said.status, Some(0));
    assert!(said.out.contains("Person 3, person 4 and person 5 hang together"), "{}", said.out);
    for stranger in ["erson 0", "erson 1", "erson 2"] {
        assert!(!said.out.contains(stranger), "{}", said.out);
    }
}

/// Fact 0 is asked by an edge inside a pair that is fixed anyway.
#[test]
fn it_waits_for_what_decides() {
    let plan = "01010102000200030101030200030201040f00010001042f00010102042f01020202";
    let folder = folder("explain-waits", plan, "017f0101010700000000000000001000");
    let said = on("explain", folder.path(), &[]);
    assert_eq!(said.out.matches("It waits for fact 1 (not told).").count(), 3, "{}", said.out);
    let idle = "Open as well, but changing nothing as things stand: fact 0 (not told).";
    assert_eq!(said.out.matches(idle).count(), 3, "{}", said.out);
    assert!(!said.out.contains("worlds"), "{}", said.out);
}

/// Whether Levan lives with Nino and Salome is the affair of these three: Maka, Dato and Tamar read the same, whatever he answers.
#[test]
fn a_stranger_answers() {
    let paragraphs = |folder: &std::path::Path| -> Vec<String> {
        let all = on("explain", folder, &[]).out;
        all.split("\n\n").skip(3).map(|text| text.trim_end().to_string()).collect()
    };
    let open = paragraphs(&example("nursery"));
    assert_eq!(open.len(), 3);
    for value in [0, 1] {
        let told = Folder::new(&format!("explain-answer-{value}"));
        told.write("plan.bin", &example_file("nursery", "plan.bin"));
        told.write("names.txt", &example_file("nursery", "names.txt"));
        let case = example_file("nursery", "case.bin");
        let before = case.strip_suffix(&[3, 3, 0, 3]).expect("fact 0 is said to be unknown");
        told.write("case.bin", &[before, &[3, 5, 0, 1, value, 5]].concat());
        assert_eq!(paragraphs(told.path()), open);
        assert_ne!(
            on("explain", told.path(), &[]).out,
            on("explain", &example("nursery"), &[]).out
        );
    }
}
