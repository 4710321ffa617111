//! names.txt: what it gives, what is wrong in it, and names of what is not there.

use lukhveri::names::{Names, sentence};
use lukhveri::{CaseRecords, Plan};

fn read(text: &str) -> Names {
    Names::read(text).expect("names")
}

#[test]
fn names_and_numbers() {
    let names = read("# who\n\nperson 3 Anna\nfact 0  lives  together\r\n");
    assert_eq!(names.person(3), "Anna");
    assert_eq!(names.of("fact", 0), "lives  together");
    assert_eq!(names.of("citation", 5), "citation 5");
    assert_eq!(names.persons([3, 4, 5]), "Anna, person 4 and person 5");
    assert_eq!(names.numbered("person", 3), "person 3 (Anna)");
    assert_eq!(names.numbered("person", 4), "person 4");
    assert_eq!(sentence("  éva"), "  Éva");
    assert_eq!(sentence(""), "");
}

#[test]
fn every_kind_can_have_a_name() {
    let most = [
        ("person", 63),
        ("fact", 63),
        ("citation", 63),
        ("decision", 15),
        ("edge", 63),
        ("cut", 15),
        ("attachment", 31),
        ("bar", 31),
        ("status", 31),
        ("actor", 255),
        ("evidence", 63),
        ("family", 255),
    ];
    for (kind, most) in most {
        let names = read(&format!("{kind} {most} Maka"));
        assert_eq!(names.find(kind, most as u8), Some("Maka"));
        assert!(Names::read(&format!("{kind} {} Maka", most + 1)).is_err());
    }
}

#[test]
fn a_byte_order_mark_is_stepped_over() {
    assert_eq!(read("\u{feff}person 3 Anna").person(3), "Anna");
    assert_eq!(read("\u{feff}# who\nperson 3 Anna").person(3), "Anna");
}

#[test]
fn equal_names_are_told_apart() {
    let names = read("person 3 Anna\nperson 5 anna\nperson 6 Beka\nfact 3 Anna\ncut 1 Person 4\n");
    assert_eq!(names.person(3), "Anna (person 3)");
    assert_eq!(names.person(5), "anna (person 5)");
    assert_eq!(names.person(6), "Beka");
    assert_eq!(names.persons([3, 5, 6]), "Anna (person 3), anna (person 5) and Beka");
    assert_eq!((names.of("fact", 3), names.of("cut", 1)), ("Anna".into(), "Person 4".into()));
    let hidden = read("person 0 Ann\u{200b}a\nperson 1 Anna\nperson 2 Anna  B\nperson 3 Anna B");
    assert!((0..4).all(|person| hidden.person(person).ends_with(&format!(" (person {person})"))));
    // A name that looks like a number, or like a name with its number.
    let tricks = read("person 3 person 5\nperson 4 Anna (person 6)\nperson 6 Anna\n");
    assert_eq!(tricks.person(3), "person 5 (person 3)");
    assert_eq!(read("person 3 5\n").person(3), "5 (person 3)");
    assert_eq!(tricks.person(4), "Anna (person 6) (person 4)");
    assert_eq!((tricks.person(5), tricks.person(6)), ("person 5".into(), "Anna".into()));
}

#[test]
fn faults_name_their_line() {
    let says = |text: &str| Names::read(text).expect_err("a fault").to_string();
    assert_eq!(
        says("person 1 A\nhouse 2 B"),
        "line 2: 'house' cannot have a name; these can: person, fact, citation, decision, edge, cut, attachment, bar, status, actor, evidence, family"
    );
    assert_eq!(says("person 64 A"), "line 1: '64' is no number of a person: 0 to 63");
    assert_eq!(says("edge A"), "line 1: 'A' is no number of an edge: 0 to 63");
    assert_eq!(says("\n\nfact 3"), "line 3: fact 3 has no name; write: fact 3 NAME");
    assert_eq!(says("fact 3 a\nfact 3 b"), "line 2: fact 3 is named already: a");
    assert_eq!(says("fact 3 a\u{1b}b"), "line 1: the name of fact 3 has a control character");
}

fn example(folder: &str, name: &str) -> Vec<u8> {
    let path = format!("{}/../../examples/{folder}/{name}", env!("CARGO_MANIFEST_DIR"));
    std::fs::read(path).expect("an example")
}

#[test]
fn names_of_what_is_not_there() {
    let plan = Plan::read(&example("kitchen", "plan.bin")).expect("a plan");
    let case = CaseRecords::read(&example("kitchen", "case.bin")).expect("a case");
    let text = "person 4 Zura\nperson 5 Gela\nfact 3 x\ncitation 6 §6\ndecision 1 which?\nedge 3 e\ncut 2 c\n\
        attachment 0 a\nbar 0 b\nstatus 0 s\nactor 3 d\nevidence 6 f\nevidence 5 g\nfamily 2 h\nfamily 1 i\n";
    assert_eq!(
        read(text).warnings(&plan, Some(&case)),
        [
            "line 2: person 5 is named Gela, but is neither on the roster nor named in the plan",
            "line 3: fact 3 is named x, but the last fact of the plan is fact 2",
            "line 4: citation 6 is named §6, but no rule cites it",
            "line 5: decision 1 is named which?, but the plan has unresolved decision 0 alone",
            "line 6: edge 3 is named e, but the last edge of the plan is edge 2",
            "line 7: cut 2 is named c, but the last cut of the plan is cut 1",
            "line 8: attachment 0 is named a, but the plan has no attachment",
            "line 9: bar 0 is named b, but the plan has no bar",
            "line 10: status 0 is named s, but the plan has no status",
            "line 11: actor 3 is named d, but no rule of the plan has this actor",
            "line 12: evidence 6 is named f, but the case has no such evidence",
            "line 14: family 2 is named h, but no fact of the plan is of this family",
        ]
    );
    assert_eq!(read("person 5 Gela\nevidence 6 f").warnings(&plan, None), [""; 0]);
}

#[test]
fn the_examples_name_what_is_there() {
    for folder in ["01", "nursery", "kitchen", "club", "allotments"] {
        let plan = Plan::read(&example(folder, "plan.bin")).expect("a plan");
        let case = CaseRecords::read(&example(folder, "case.bin")).expect("a case");
        let text = String::from_utf8(example(folder, "names.txt")).expect("text");
        assert_eq!(read(&text).warnings(&plan, Some(&case)), [""; 0], "{folder}");
    }
}
