//! lukhveri list.

mod folder;
mod program;
mod roster;

use folder::Folder;
use program::json::{self, Value};
use program::{EXAMPLES, Random, Said, example, example_file, on, run};
use roster::{households, roster, units, without_units};

/// examples/*/printed.txt is what the lister prints. Where an example has units that are no households, the standard error says so.
#[test]
fn the_rows_of_the_lister() {
    for name in EXAMPLES {
        let said = on("list", &example(name), &[]);
        assert_eq!(said.out.as_bytes(), example_file(name, "printed.txt"), "{name}");
        let note = match name {
            "camp" => {
                "lukhveri: examples/camp: the last row counts 3 households; there are 4 units, but in 1 of them everybody is excluded: block 0,1\n"
            }
            "choir" => {
                "lukhveri: examples/choir: the last row counts 2 households; there are 3 units, but in 1 of them everybody is excluded: block 2\n"
            }
            "rowing" => {
                "lukhveri: examples/rowing: the last row counts 2 households; there are 4 units, but in 2 of them everybody is excluded: block 5; block 6\n"
            }
            _ => "",
        };
        assert_eq!((said.err.as_str(), said.status), (note, Some(0)));
    }
}

/// A folder with the roster of these words.
fn folder(name: &str, (plan, case): &(Vec<u8>, Vec<u8>)) -> Folder {
    let folder = Folder::new(name);
    folder.write("plan.bin", plan);
    folder.write("case.bin", case);
    folder
}

/// The note behind the folder's name, if there is one; the status is 0 and the text ends with the number of households.
fn note(folder: &Folder, said: &Said, households: usize) -> Option<String> {
    assert_eq!(said.status, Some(0), "{said:?}");
    assert!(said.out.ends_with(&format!("\nunits {households}\n")), "{said:?}");
    let note = said.err.strip_prefix(&format!("lukhveri: {}: ", folder.path().display()));
    assert!(note.is_some() || said.err.is_empty(), "{said:?}");
    note.map(|note| note.strip_suffix('\n').expect("one line").to_string())
}

/// Both numbers, in singular and plural, and each block that is no household.
#[test]
fn units_that_are_no_households() {
    for (words, wanted) in [
        (
            "e",
            "the last row counts 0 households; there is 1 unit, but everybody in it is excluded: block 0",
        ),
        (
            "ee",
            "the last row counts 0 households; there is 1 unit, but everybody in it is excluded: block 0,1",
        ),
        (
            "e ee",
            "the last row counts 0 households; there are 2 units, but in each of them everybody is excluded: block 0; block 1,2",
        ),
        (
            "e b",
            "the last row counts 1 household; there are 2 units, but in 1 of them everybody is excluded: block 0",
        ),
        (
            "oe ee b e mm",
            "the last row counts 3 households; there are 5 units, but in 2 of them everybody is excluded: block 2,3; block 5",
        ),
    ] {
        let folder = folder("list-households", &roster(words));
        let said = on("list", folder.path(), &[]);
        let note = note(&folder, &said, households(words).len());
        assert_eq!(note.as_deref(), Some(wanted), "{words}");
    }
}

/// Somebody who is barred, or whose role is open, makes a household; rosters of kinds 5 and 6 have neither units nor households.
#[test]
fn nothing_is_said_where_all_units_are_households() {
    for words in ["m", "b", "o", "oe", "be", "me mm b"] {
        let folder = folder("list-all-households", &roster(words));
        let said = on("list", folder.path(), &[]);
        assert_eq!(note(&folder, &said, units(words).len()), None, "{words}");
    }
    for inputs in without_units("e ee m") {
        let folder = folder("list-no-units", &inputs);
        let said = on("list", folder.path(), &[]);
        assert_eq!(note(&folder, &said, 0), None);
        let object = json::read(&on("list", folder.path(), &["--json"]).out);
        assert_eq!((object.at("units").number(), object.at("households").number()), (0, 0));
    }
}

/// In JSON both numbers are always there, and the standard error is empty.
#[test]
fn units_and_households_as_json() {
    let mut random = Random(11);
    for _ in 0..30 {
        let word =
            |random: &mut Random| ["e", "ee", "m", "b", "oe", "me", "eo"][random.below(7) as usize];
        let words: Vec<&str> = (0..1 + random.below(5)).map(|_| word(&mut random)).collect();
        let words = words.join(" ");
        let folder = folder("list-json-households", &roster(&words));
        let said = on("list", folder.path(), &["--json"]);
        assert_eq!((said.err.as_str(), said.status), ("", Some(0)));
        let object = json::read(&said.out);
        let numbers = ["units", "households"].map(|name| object.at(name).number() as usize);
        assert_eq!(numbers, [units(&words).len(), households(&words).len()], "{words}");
    }
}

/// A line end in the folder's name does not break the line.
#[test]
fn a_folder_with_an_odd_name() {
    let folder = folder("list-odd\nname", &roster("e"));
    let said = on("list", folder.path(), &[]);
    assert!(said.err.lines().count() == 1 && said.err.contains("list-odd?name"), "{said:?}");
    assert_eq!(
        (said.out.as_str(), said.status),
        ("person kind role block\n0 0 2 0\nunits 0\n", Some(0))
    );
}

#[test]
fn the_same_rows_as_json() {
    let said = on("list", &example("kitchen"), &["--json"]);
    let wanted = r#"{"lines":[{"person":0,"kind":1,"role":0,"block":[]},{"person":1,"kind":1,"role":0,"block":[]},{"person":2,"kind":1,"role":0,"block":[]},{"person":3,"kind":0,"role":1,"block":[3,4]},{"person":4,"kind":0,"role":1,"block":[3,4]}],"units":1,"households":1}"#;
    assert_eq!((said.out.as_str(), said.status), (format!("{wanted}\n").as_str(), Some(0)));
    json::read(&said.out);
}

/// The row is the lister's; the standard error says it in words.
#[test]
fn a_refusal() {
    let folder = Folder::new("list-refused");
    folder.write("plan.bin", &example_file("kitchen", "plan.bin"));
    let mut case = example_file("kitchen", "case.bin");
    case[2] = 9;
    folder.write("case.bin", &case);
    let said = on("list", folder.path(), &[]);
    assert_eq!((said.out.as_str(), said.status), ("refused 9 0\n", Some(1)));
    let path = folder.path().join("case.bin");
    assert!(said.err.starts_with(&format!("lukhveri: {}: refused 9: ", path.display())));
    assert!(said.err.ends_with(": its relation is 9, the plan's is 1\n"), "{}", said.err);
    let said = on("list", folder.path(), &["--json"]);
    assert_eq!(said.status, Some(1));
    let refusal = json::read(&said.out).at("refusal").clone();
    assert_eq!((refusal.at("number").number(), refusal.at("record").number()), (9, 0));
    assert_eq!(refusal.at("file").text(), "case");
    folder.write("plan.bin", &[]);
    let said = on("list", folder.path(), &[]);
    assert_eq!((said.out.as_str(), said.status), ("refused 3 0\n", Some(1)));
    assert!(said.err.contains("plan.bin: refused 3: plan, record 0"), "{}", said.err);
}

/// 11 names no record and has no finding.
#[test]
fn too_many_worlds() {
    let folder = Folder::new("list-worlds");
    folder.write("plan.bin", &example_file("kitchen", "plan.bin"));
    let mut case = example_file("kitchen", "case.bin");
    case[14] = 3;
    case[15] = 0;
    folder.write("case.bin", &case);
    let said = on("list", folder.path(), &[]);
    assert_eq!((said.out.as_str(), said.status), ("refused 11 0\n", Some(1)), "{said:?}");
    assert!(said.err.contains("case.bin: refused 11: "), "{}", said.err);
    let refusal = json::read(&on("list", folder.path(), &["--json"]).out);
    assert_eq!(refusal.at("refusal").at("finding"), &Value::Null);
}

#[test]
fn folders_that_are_none() {
    run(&["list", "nowhere"]).is_trouble("nowhere/plan.bin: there is no such file");
    let said = run(&["list", "examples/kitchen/plan.bin"]);
    said.is_trouble(
        "examples/kitchen/plan.bin: this is a file; a folder with plan.bin and case.bin is wanted",
    );
    let folder = Folder::new("list-broken");
    folder.write("plan.bin", &example_file("kitchen", "plan.bin"));
    on("list", folder.path(), &[]).is_trouble("case.bin: there is no such file");
    std::fs::create_dir(folder.path().join("case.bin")).expect("a folder");
    on("list", folder.path(), &[]).is_trouble("case.bin: this is a folder, not a file");
}

/// The lister knows no names, so faults in them do not touch it.
#[test]
fn names_do_not_matter() {
    let folder = Folder::new("list-names");
    folder.write("plan.bin", &example_file("kitchen", "plan.bin"));
    folder.write("case.bin", &example_file("kitchen", "case.bin"));
    folder.write("names.txt", b"\xff\nperson x y\n");
    let said = on("list", folder.path(), &[]);
    assert_eq!((said.err.as_str(), said.status), ("", Some(0)));
}

#[test]
fn a_file_that_may_not_be_read() {
    use std::os::unix::fs::PermissionsExt;
    let folder = Folder::new("list-closed");
    folder.write("plan.bin", &example_file("kitchen", "plan.bin"));
    let path = folder.path().join("plan.bin");
    let closed = std::fs::Permissions::from_mode(0o000);
    std::fs::set_permissions(&path, closed).expect("permissions");
    // root may read everything
    if std::fs::File::open(&path).is_err() {
        on("list", folder.path(), &[]).is_trouble("plan.bin: it cannot be read: Permission denied");
    }
}
