//! lukhveri pool.

mod folder;
mod program;
mod roster;

use folder::Folder;
use program::json::{self, Value};
use program::{example, example_file, hex, on, run};
use roster::roster;

const CHOIR: &str = "\
3 units, 2 of them households, each with its pool:
  Nato and Gela: 10 cents. Open: this pool is not final as long as Nato has no decided role; the amount of Nato is not in it, but unplaced.
  Rezo: 0 cents, as everybody in it is excluded; no household.
  Soso: 1000 cents.

Unplaced: 101 cents.
  Nato: 1 cent; the unit is certain, but the role is not decided.
  Rezo: 100 cents; excluded.

All pools together: 1010 cents.
Pools and unplaced amounts together: 1111 cents, the sum of the whole list.
";

/// The choir, with amounts of its own.
fn choir(name: &str, files: &[(&str, &[u8])]) -> Folder {
    let folder = Folder::new(name);
    for file in ["plan.bin", "case.bin", "names.txt"] {
        folder.write(file, &example_file("choir", file));
    }
    files.iter().for_each(|(name, bytes)| folder.write(name, bytes));
    folder
}

#[test]
fn the_choir() {
    let said = on("pool", &example("choir"), &[]);
    assert_eq!((said.out.as_str(), said.err.as_str(), said.status), (CHOIR, "", Some(0)));
}

#[test]
fn the_same_amounts_in_bytes() {
    let amounts = hex("010000000a00000064000000e8030000");
    let folder = choir("pool-bytes", &[("amounts.bin", &amounts)]);
    let said = on("pool", folder.path(), &[]);
    assert_eq!((said.out.as_str(), said.err.as_str(), said.status), (CHOIR, "", Some(0)));
    std::fs::remove_file(folder.path().join("names.txt")).expect("names");
    let said = on("pool", folder.path(), &[]).out;
    assert!(said.contains("\n  Person 0 and person 1: 10 cents. Open: this pool is not final as long as person 0 has no"), "{said}");
    assert!(said.contains("\n  Person 2: 100 cents; excluded.\n"), "{said}");
}

#[test]
fn as_json() {
    let said = on("pool", &example("choir"), &["--json"]);
    assert_eq!((said.err.as_str(), said.status), ("", Some(0)));
    let units = r#"{"units":[{"persons":[0,1],"cents":10,"open":true,"household":true},{"persons":[2],"cents":0,"open":false,"household":false},{"persons":[3],"cents":1000,"open":false,"household":true}],"unplaced":101,"pooled":1010,"sum":1111,"lines":["#;
    assert!(said.out.starts_with(units), "{}", said.out);
    let object = json::read(&said.out);
    let lines = object.at("lines").list();
    let cents: Vec<u64> = lines.iter().map(|line| line.at("cents").number()).collect();
    assert_eq!(cents, [1, 10, 100, 1000]);
    assert_eq!((lines[0].at("name").text(), lines[0].at("kind").number()), ("Nato", 2));
    let open = "the unit is certain, but the role is not decided";
    assert_eq!(lines[0].at("why_unplaced").text(), open);
    assert_eq!(lines[1].at("why_unplaced"), &Value::Null);
    assert_eq!(lines[2].at("why_unplaced").text(), "excluded");
}

/// The heading and the units of a roster in which everybody has one cent, and which of them JSON has for households.
fn pooled(words: &str) -> (Vec<String>, Vec<bool>) {
    let (folder, (plan, case)) = (Folder::new("pool-households"), roster(words));
    folder.write("plan.bin", &plan);
    folder.write("case.bin", &case);
    folder.write("amounts.bin", &[1, 0, 0, 0].repeat(words.replace(' ', "").len()));
    folder.write("names.txt", b"person 0 rezo\n");
    let said = on("pool", folder.path(), &[]);
    assert_eq!((said.err.as_str(), said.status), ("", Some(0)));
    let units = said.out.lines().take_while(|line| !line.is_empty()).map(str::to_string).collect();
    let object = json::read(&on("pool", folder.path(), &["--json"]).out);
    let household = |unit: &Value| unit.at("household") == &Value::Bool(true);
    (units, object.at("units").list().iter().map(household).collect())
}

/// Each unit that is no household is told so, and the heading says how many are; barred persons and open roles make households.
#[test]
fn units_that_are_no_households() {
    let (units, households) = pooled("e ee oe b m");
    assert_eq!(
        units,
        [
            "5 units, 3 of them households, each with its pool:",
            "  Rezo: 0 cents, as everybody in it is excluded; no household.",
            "  Person 1 and person 2: 0 cents, as everybody in it is excluded; no household.",
            "  Person 3 and person 4: 0 cents, as nobody in it is pooled. Open: this pool is not final as long as person 3 has no decided role; the amount of person 3 is not in it, but unplaced.",
            "  Person 5: 1 cent.",
            "  Person 6: 1 cent.",
        ]
    );
    assert_eq!(households, [false, false, true, true, true]);
    for (words, heading) in [
        ("e", "1 unit, which is no household, with its pool:"),
        ("b", "1 unit, with its pool:"),
        ("e e", "2 units, none of them a household, each with its pool:"),
        ("o e", "2 units, 1 of them a household, each with its pool:"),
        ("be o m", "3 units, each with its pool:"),
    ] {
        assert_eq!(pooled(words).0[0], heading, "{words}");
    }
}

/// 15 is a refusal like the others: the result says it, status 1.
#[test]
fn lists_that_do_not_fit() {
    let folder = choir("pool-short", &[("amounts.bin", &[1, 0, 0, 0, 2, 0, 0, 0, 3, 0, 0, 0])]);
    let said = on("pool", folder.path(), &[]);
    let remedy = "give one amount for each person of the roster, in rising order of the persons' numbers; in amounts.bin each takes 4 bytes";
    let wanted = format!(
        "Refused 15: the list has 3 amounts, the roster 4 persons.\nWhat would mend it: {remedy}.\n"
    );
    assert_eq!((said.out, said.status), (wanted, Some(1)));
    let path = folder.path().join("amounts.bin");
    assert_eq!(said.err, format!("lukhveri: {}: refused 15\n", path.display()));
    let said = on("pool", folder.path(), &["--json"]);
    assert_eq!(said.status, Some(1));
    let refusal = json::read(&said.out).at("refusal").clone();
    assert_eq!((refusal.at("number").number(), refusal.at("record").number()), (15, 0));
    assert_eq!(refusal.at("file").text(), "amounts");
    assert_eq!(refusal.at("finding").text(), "the list has 3 amounts, the roster 4 persons");
    assert_eq!(refusal.at("remedy").text(), remedy);
    for (length, words) in [
        (0, "the list has 0 amounts, the roster 4 persons."),
        (
            15,
            "the list has 15 bytes, no multiple of 4; the roster has 4 persons, which makes 16 bytes.",
        ),
        (20, "the list has 5 amounts, the roster 4 persons."),
        (5000, "the list has more than 64 amounts, the roster 4 persons."),
        (5001, "the list has more than 64 amounts, the roster 4 persons."),
    ] {
        folder.write("amounts.bin", &vec![0; length]);
        let said = on("pool", folder.path(), &[]);
        assert_eq!(said.status, Some(1));
        assert!(said.out.starts_with(&format!("Refused 15: {words}\n")), "{}", said.out);
    }
}

/// Plan and case come before the list, whichever file it is in.
#[test]
fn plan_and_case_are_refused_first() {
    let table: &[u8] = b"no table at all";
    for (file, bytes) in [("amounts.bin", &[1u8, 2, 3][..]), ("amounts.csv", table)] {
        let folder = choir("pool-refused", &[(file, bytes)]);
        let mut case = example_file("choir", "case.bin");
        case[2] = 9;
        folder.write("case.bin", &case);
        let said = on("pool", folder.path(), &[]);
        assert_eq!(said.status, Some(1), "{said:?}");
        assert!(said.out.starts_with("Refused 9: case, record 0 "), "{}", said.out);
        assert!(said.err.ends_with("case.bin: refused 9, record 0\n"), "{}", said.err);
        folder.write("plan.bin", &[]);
        let said = on("pool", folder.path(), &["--json"]);
        let refusal = json::read(&said.out).at("refusal").clone();
        assert_eq!((refusal.at("number").number(), refusal.at("file").text()), (3, "plan"));
    }
}

#[test]
fn both_files_or_neither() {
    let folder = choir("pool-files", &[]);
    let here = folder.path().display().to_string();
    on("pool", folder.path(), &[]).is_trouble(&format!(
        "{here}: this folder has no amounts; write amounts.csv, with person,cents in its first row and then a row for each person of the roster, or amounts.bin"
    ));
    folder.write("amounts.bin", &[0; 16]);
    folder.write("amounts.csv", &example_file("choir", "amounts.csv"));
    on("pool", folder.path(), &["--json"]).is_trouble(&format!(
        "{here}: this folder has amounts.bin and amounts.csv, and nothing says which of them counts; take one away"
    ));
    std::fs::remove_file(folder.path().join("amounts.bin")).expect("a file");
    std::fs::create_dir(folder.path().join("amounts.bin")).expect("a folder");
    on("pool", folder.path(), &[]).is_trouble("take one away");
    std::fs::remove_file(folder.path().join("amounts.csv")).expect("a file");
    on("pool", folder.path(), &[]).is_trouble("amounts.bin: this is a folder, not a file");
    run(&["pool", "nowhere"]).is_trouble("nowhere/plan.bin: there is no such file");
    run(&["pool", "examples/choir/plan.bin"])
        .is_trouble("a folder with plan.bin and case.bin is wanted");
}

/// A line for each fault, with file, row and what would mend it; status 2, and nothing is printed.
#[test]
fn faults_of_a_table() {
    let folder = choir("pool-faults", &[]);
    let path = folder.path().join("amounts.csv").display().to_string();
    let says = |text: &str| {
        folder.write("amounts.csv", text.as_bytes());
        let said = on("pool", folder.path(), &[]);
        assert_eq!((said.out.as_str(), said.status), ("", Some(2)));
        let lines = said.err.lines().map(|line| {
            let rest = line.strip_prefix(&format!("lukhveri: {path}: "));
            rest.unwrap_or_else(|| panic!("{line}")).to_string()
        });
        lines.collect::<Vec<_>>()
    };
    assert_eq!(
        says("person;cents\n0;1\n"),
        [
            "row 1: the first row is 'person;cents', parted by semicolons; write person,cents there, and part all rows by commas"
        ]
    );
    assert_eq!(
        says("person,cents\nNato,1\nGela,10\nRezo,100.00\nSoso,4294967296\nNato,1\nOtto,5\n"),
        [
            "row 4: '100.00' is no whole number of cents; write digits alone, from 0 to 4294967295: 1250 for 12.50",
            "row 5: 4294967296 is too large; correct the amount, at most 4294967295",
            "row 6: person 0 (Nato) stands in row 2 already; keep one of the two",
            "row 7: 'Otto' is no person's number, and no name of names.txt; write the number, or the name as it stands there",
        ]
    );
    assert_eq!(
        says("person,cents\n0,1\n1,10\n3,1000\n"),
        ["there is no row for person 2 (Rezo); add one with the amount"]
    );
    let many = says(&format!("person,cents\n{}", "x,1\n".repeat(30)));
    assert_eq!((many.len(), many[20].as_str()), (21, "11 more faults"));
    let one_more = says(&format!("person,cents\n0,1\n1,1\n2,1\n3,1\n{}", "x,1\n".repeat(21)));
    assert_eq!((one_more.len(), one_more[20].as_str()), (21, "1 more fault"));
    // A line end within a field does not break the line.
    assert_eq!(
        says("person,cents\n\"a\nb\",1\n")[0].split(';').next(),
        Some("row 2: 'a?b' is no person's number, and no name of names.txt")
    );
    folder.write("amounts.csv", b"person,cents\n\xff,1\n");
    on("pool", folder.path(), &[])
        .is_trouble("amounts.csv: line 2 is no UTF-8 text; save the file as UTF-8");
}

/// CR LF and LF, a byte order mark, quotation marks, names and numbers, any order.
#[test]
fn tables_of_all_sorts() {
    let folder = choir("pool-tables", &[]);
    for text in [
        "person,cents\r\nNato,1\r\nGela,10\r\nRezo,100\r\nSoso,1000",
        "\u{feff}\"person\",\"cents\"\n3,1000\n\"Rezo\",100\n1,\"10\"\nNato,1\n\n",
    ] {
        folder.write("amounts.csv", text.as_bytes());
        let said = on("pool", folder.path(), &[]);
        assert_eq!((said.out.as_str(), said.status), (CHOIR, Some(0)), "{text:?}: {}", said.err);
    }
    folder.write("names.txt", b"person 0 Nato\nperson 1 Nato\n");
    folder.write("amounts.csv", b"person,cents\nNato,1\n1,10\n2,100\n3,1000\n");
    let said = on("pool", folder.path(), &[]);
    assert_eq!(said.status, Some(2));
    assert!(
        said.err.contains("row 2: person 0 and person 1 are called 'Nato'; write the number\n")
    );
}

/// Kinds 5 and 6: no units, everything is unplaced, and that is no refusal.
#[test]
fn rosters_without_units() {
    let folder = choir("pool-none", &[("amounts.csv", &example_file("choir", "amounts.csv"))]);
    let case = example_file("choir", "case.bin");
    // Without its evidence that it is complete.
    let open: Vec<u8> = [&[1, 0x5f][..], &case[2..13], &case[14..]].concat();
    folder.write("case.bin", &open);
    let said = on("pool", folder.path(), &[]);
    assert_eq!(said.status, Some(0));
    assert!(said.out.starts_with("There are no units.\n\nUnplaced: 1111 cents.\n  Nato: 1 cent; nothing is decided, as the roster is not complete.\n"), "{}", said.out);
    assert!(said.out.ends_with("All pools together: 0 cents.\nPools and unplaced amounts together: 1111 cents, the sum of the whole list.\n"));
    let object = json::read(&on("pool", folder.path(), &["--json"]).out);
    assert_eq!((object.at("units").list().len(), object.at("unplaced").number()), (0, 1111));
    // A constraint on a node that never holds.
    let plan = example_file("choir", "plan.bin");
    let never = [&plan[..5], &[3, 1, 1, 3, 2, 0, 3, 1, 0], &plan[11..]].concat();
    folder.write("plan.bin", &never);
    folder.write("case.bin", &[&case[..], &[5, 1, 2]].concat());
    let said = on("pool", folder.path(), &[]);
    assert_eq!(said.status, Some(0));
    assert!(said.out.contains("\n  Soso: 1000 cents; nothing is decided, as the constraints of the case cannot all hold.\n"), "{}", said.out);
}
