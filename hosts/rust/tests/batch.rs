//! lukhveri batch.

mod folder;
mod program;
mod roster;

use std::io::{BufRead, BufReader, Write};
use std::path::Path;
use std::process::Stdio;

use folder::Folder;
use program::json::{self, Value};
use program::{EXAMPLES, Random, Said, example, example_file, on, program, run, run_with};
use roster::{roster, without_units};

const HEADING: &str = "case,person,name,kind,role,block,open facts,open decisions,citations,refusal,record,reason\r\n";

/// Persons 0 and 1 belong together.
const PAIR: [u8; 12] = [1, 1, 7, 3, 1, 1, 4, 15, 0, 1, 0, 5];

/// A complete roster of the persons from 0 to below a number, for that plan.
fn complete(persons: u32) -> Vec<u8> {
    let roster = (1u64 << persons) - 1;
    let mut case = vec![1, 127, 7, 1, 2];
    case.extend(roster.to_le_bytes());
    case.extend([9, 0, 16]);
    case
}

/// The counts at the end of the standard error, up to the time.
fn counts(said: &Said) -> &str {
    let last = said.err.lines().last().expect("counts");
    let (counts, time) = last.rsplit_once("; ").expect("counts and a time");
    assert!(time.ends_with(" cases a second") && !last.contains('\r'), "{last}");
    counts.strip_prefix("lukhveri: ").expect("the program's name")
}

fn text(path: &Path) -> &str {
    path.to_str().expect("a path")
}

#[test]
fn the_examples() {
    let words: Vec<String> = EXAMPLES.map(|name| format!("examples/{name}")).to_vec();
    let mut all = vec!["batch".to_string()];
    all.extend(words);
    let said = run(&all);
    assert_eq!(said.status, Some(0));
    let wanted =
        "8 cases: 8 answered, 0 refused, 0 unreadable; 46 persons; 20 units, 16 of them households";
    assert_eq!(counts(&said), wanted);
    assert!(said.out.starts_with(HEADING));
    for row in [
        "examples/01/case.bin,0,Ana,0,1,0 1,,,1,,,\r\n",
        "examples/allotments/case.bin,6,Irma,2,0,6 7,0 1,,1 3,,,\r\n",
        "examples/kitchen/case.bin,2,Nana,1,0,,2,0,,,,\r\n",
    ] {
        assert!(said.out.contains(row), "{row} is not in {}", said.out);
    }
    assert!(
        said.err.contains("lukhveri: examples/club: not taken for cases: README.md, printed.txt\n")
    );
}

#[test]
fn a_mixed_folder() {
    let folder = Folder::new("batch-mixed");
    let here = text(folder.path());
    folder.write("plan.bin", &PAIR);
    folder.write("b.bin", &complete(3));
    folder.write("a, \"the first\".bin", &complete(2));
    folder.write("c.bin", &[]);
    let mut wrong = complete(2);
    wrong[2] = 9;
    folder.write("e.bin", &wrong);
    folder.write("names.txt", "person 0 Anna, the first\nperson 2 Éva\n".as_bytes());
    folder.write("notes.txt", b"no case");
    std::fs::create_dir(folder.path().join("d.bin")).expect("a folder");
    let said = on("batch", folder.path(), &[]);
    let first = format!("\"{here}/a, \"\"the first\"\".bin\"");
    let wanted = format!(
        "{HEADING}\
{first},0,\"Anna, the first\",0,1,0 1,,,5,,,\r
{first},1,,0,1,0 1,,,5,,,\r
{here}/b.bin,0,\"Anna, the first\",0,1,0 1,,,5,,,\r
{here}/b.bin,1,,0,1,0 1,,,5,,,\r
{here}/b.bin,2,Éva,0,1,2,,,,,,\r
{here}/c.bin,,,,,,,,,3,0,\""
    );
    assert!(said.out.starts_with(&wanted), "{}\nand not\n{wanted}", said.out);
    let last: Vec<&str> = said.out.lines().skip(6).collect();
    assert_eq!(last.len(), 3, "{last:?}");
    assert_eq!(
        last[1],
        format!("{here}/d.bin,,,,,,,,,,,\"unreadable: this is a folder, not a file\"")
    );
    assert!(last[2].starts_with(&format!("{here}/e.bin,,,,,,,,,9,0,\"case, record 0 ")));
    assert!(last[2].ends_with(": its relation is 9, the plan's is 7\""), "{}", last[2]);
    assert_eq!(counts(&said), "5 cases: 2 answered, 2 refused, 1 unreadable; 5 persons; 3 units");
    assert!(said.err.starts_with(&format!("lukhveri: {here}: not taken for cases: notes.txt\n")));
    assert_eq!(said.status, Some(2));
    std::fs::remove_dir(folder.path().join("d.bin")).expect("a folder");
    assert_eq!(on("batch", folder.path(), &[]).status, Some(1));
}

#[test]
fn as_json_lines() {
    let folder = Folder::new("batch-json");
    folder.write("plan.bin", &example_file("kitchen", "plan.bin"));
    folder.write("a \"b\".bin", &example_file("kitchen", "case.bin"));
    folder.write("c.bin", &[1]);
    std::fs::create_dir(folder.path().join("d.bin")).expect("a folder");
    let said = on("batch", folder.path(), &["--json"]);
    assert_eq!(said.status, Some(2));
    let rows: Vec<Value> = said.out.split_inclusive('\n').map(json::read).collect();
    assert_eq!(rows.len(), 7);
    assert_eq!(rows[0].at("case").text(), format!("{}/a \"b\".bin", folder.path().display()));
    assert_eq!(rows[2].at("open_facts"), &Value::List(vec![Value::Number(2)]));
    assert_eq!(rows[3].at("block"), &Value::List(vec![Value::Number(3), Value::Number(4)]));
    assert_eq!((rows[3].at("person").number(), rows[3].at("name")), (3, &Value::Null));
    assert_eq!(rows[5].at("refusal").at("number").number(), 1);
    assert_eq!(rows[6].at("error").text(), "unreadable: this is a folder, not a file");
}

/// Many cases of different lengths, over all processors: the table is in order and always the same.
#[test]
fn many_cases_in_order() {
    let folder = Folder::new("batch-many");
    let here = text(folder.path());
    folder.write("plan.bin", &PAIR);
    let mut wanted = HEADING.to_string();
    for number in 0..2000u32 {
        let last = 2 + number * 7 % 60;
        folder.write(&format!("{number:04}.bin"), &complete(last));
        for person in 0..last {
            let (block, cited) =
                if person < 2 { ("0 1".to_string(), "5") } else { (person.to_string(), "") };
            wanted += &format!("{here}/{number:04}.bin,{person},,0,1,{block},,,{cited},,,\r\n");
        }
    }
    for _ in 0..3 {
        let said = on("batch", folder.path(), &[]);
        assert!(said.out == wanted);
        assert_eq!(said.status, Some(0));
    }
}

#[test]
fn folders_without_cases() {
    let folder = Folder::new("batch-none");
    folder.write("plan.bin", &PAIR);
    let said = on("batch", folder.path(), &[]);
    assert_eq!((said.out.as_str(), said.status), (HEADING, Some(2)));
    assert!(said.err.contains(": no cases in this folder\n"), "{}", said.err);
    assert!(counts(&said).starts_with("0 cases: 0 answered"));
    let said =
        run(&["batch", "--rows", "examples", "nowhere", "examples/01/plan.bin", "examples/01"]);
    assert_eq!(said.status, Some(2));
    assert_eq!(said.out.lines().count(), 3, "the folder that has cases is done: {}", said.out);
    let complaints = [
        "lukhveri: examples: no cases in this folder; it has 01, allotments, camp, choir and 4 more: try examples/*\n",
        "lukhveri: nowhere: there is no such folder\n",
        "lukhveri: examples/01/plan.bin: this is a file; a folder of cases is wanted\n",
    ];
    for complaint in complaints {
        assert!(said.err.contains(complaint), "{complaint} is not in {}", said.err);
    }
}

#[test]
fn one_plan_for_all() {
    let folder = Folder::new("batch-common");
    folder.write("pair.bin", &PAIR);
    folder.write("a.bin", &complete(2));
    folder.write("b.bin", &complete(3));
    let plan = folder.path().join("pair.bin");
    let said = on("batch", folder.path(), &["--rows", "--plan", text(&plan)]);
    assert_eq!((said.out.lines().count(), said.status), (5, Some(0)), "{said:?}");
    let said = on("batch", folder.path(), &["--rows"]);
    assert_eq!(said.status, Some(2));
    assert!(said.err.contains("/plan.bin: there is no such file\n"), "{}", said.err);
    assert_eq!(said.out.lines().count(), 3, "every case has a row: {}", said.out);
    assert!(said.out.contains("/a.bin,,,,,,,,,,,unreadable: plan.bin: there is no such file\r\n"));
    let said = run(&["batch", "--plan", text(&plan), "examples/01"]);
    assert!(said.err.contains("examples/01: its plan.bin is not used, as --plan is given\n"));
    assert_eq!(said.status, Some(1));
    let said = run(&["batch", "--plan", "nowhere.bin", "examples/01"]);
    said.is_trouble("nowhere.bin: there is no such file");
    let own = run(&["batch", "--plan", "examples/01/plan.bin", "examples/01"]);
    assert!(!own.err.contains("is not used"), "{}", own.err);
}

#[test]
fn plans_that_are_refused() {
    let folder = Folder::new("batch-refused");
    folder.write("plan.bin", &PAIR[..5]);
    folder.write("a.bin", &complete(2));
    let said = on("batch", folder.path(), &["--rows"]);
    assert_eq!(said.status, Some(1));
    assert!(
        said.out.contains("/a.bin,,,,,,,,,1,1,\"plan, record 1 (at byte 3), node 0: the file ends before its last field does\""),
        "{said:?}"
    );
    let plan = folder.path().join("plan.bin");
    let said = on("batch", folder.path(), &["--plan", text(&plan)]);
    assert_eq!((said.out.as_str(), said.status), ("", Some(1)));
    assert!(
        said.err.starts_with(&format!("lukhveri: {}: refused 1: plan, record 1", plan.display()))
    );
    assert_eq!(said.err.lines().count(), 1);
}

/// A names.txt with faults costs the names of its folder, no row.
#[test]
fn faulty_names() {
    let folder = Folder::new("batch-names");
    folder.write("plan.bin", &PAIR);
    folder.write("a.bin", &complete(2));
    folder.write("names.txt", b"person 0 Anna\nperson x Ben\n");
    let said = on("batch", folder.path(), &["--rows"]);
    assert_eq!((said.out.lines().count(), said.status), (2, Some(2)));
    assert!(said.err.contains("names.txt: line 2: 'x' is no number of a person"), "{}", said.err);
    assert!(!said.out.contains("Anna"));
}

/// Nor is a name in the table of amounts said to be wrong then.
#[test]
fn faulty_names_with_amounts() {
    let folder = Folder::new("batch-names-amounts");
    folder.write("plan.bin", &PAIR);
    folder.write("a.bin", &complete(2));
    folder.write("names.txt", b"person 0 Anna\nperson x Ben\n");
    folder.write("amounts.csv", b"person,cents\nAnna,1\n1,2\n");
    let said = on("batch", folder.path(), &["--rows", "--amounts"]);
    let why = "amounts.csv: row 2: 'Anna' is no person's number, and names.txt is not used because of its fault; mend names.txt, or write the number (and 1 more fault)";
    let here = text(folder.path());
    let row = format!("{here}/a.bin,,,,,,,,,\"unreadable: {why}\"\r\n");
    assert_eq!((said.out, said.status), (row, Some(2)));
    assert!(said.err.contains("names.txt: line 2: 'x' is no number of a person"), "{}", said.err);
}

/// A table with faults is told once a folder, by the first of its cases that it does not fit.
#[test]
fn faulty_tables_on_the_standard_error() {
    let folder = Folder::new("batch-faulty-tables");
    let here = text(folder.path());
    folder.write("plan.bin", &PAIR);
    folder.write("amounts.csv", b"person,cents\n0,1\n1,2\n2,4\n");
    folder.write("a.bin", &complete(3));
    for number in 0..50 {
        folder.write(&format!("b{number:02}.bin"), &complete(2));
    }
    let what = "row 4: person 2 is not on the roster; take the row away, or correct the person";
    let line = format!("lukhveri: {here}: amounts.csv for b00.bin: {what}\n");
    for (times, words) in [(1, vec![here]), (2, vec![here, here])] {
        let said = run(&[vec!["batch", "--rows", "--amounts"], words].concat());
        assert_eq!(said.err.matches(&line).count(), times, "{}", said.err);
        assert_eq!((said.err.lines().count(), said.status), (times + 1, Some(2)));
        assert_eq!(
            said.out.matches(&format!("unreadable: amounts.csv: {what}")).count(),
            times * 50
        );
    }
}

/// A pipe that nobody fills stops nothing.
#[test]
fn a_case_that_is_a_pipe() {
    let folder = Folder::new("batch-pipe");
    folder.write("plan.bin", &PAIR);
    folder.write("a.bin", &complete(2));
    let pipe = folder.path().join("b.bin");
    let made = std::process::Command::new("mkfifo").arg(&pipe).status().expect("mkfifo");
    assert!(made.success());
    let said = on("batch", folder.path(), &["--rows"]);
    assert!(
        said.out.ends_with(
            "/b.bin,,,,,,,,,,,\"unreadable: this is a device, a pipe or a socket, not a file\"\r\n"
        ),
        "{}",
        said.out
    );
}

/// A federation: folders with plans, cases and names of their own, among them some that are refused.
fn federation(name: &str, count: usize) -> (Folder, Vec<String>) {
    let (folder, mut random) = (Folder::new(name), Random(7));
    let mut names = Vec::new();
    for number in 0..count {
        let own = folder.path().join(format!("club {number}"));
        std::fs::create_dir(&own).expect("a folder");
        let from = EXAMPLES[random.below(EXAMPLES.len() as u64) as usize];
        let file = |file: &str| example_file(from, file);
        std::fs::write(own.join("plan.bin"), file("plan.bin")).expect("a plan");
        std::fs::write(own.join("names.txt"), file("names.txt")).expect("names");
        for case in 0..random.below(4) {
            let mut bytes = file("case.bin");
            let at = random.below(bytes.len() as u64) as usize;
            bytes[at] ^= random.below(3) as u8;
            std::fs::write(own.join(format!("{case}.bin")), bytes).expect("a case");
        }
        names.push(text(&own).to_string());
    }
    (folder, names)
}

/// However the list of folders is split, the parts put together are the whole table.
#[test]
fn parts_make_the_whole() {
    let (_folder, names) = federation("batch-parts", 40);
    let list = |names: &[String]| names.iter().map(|name| format!("{name}\n")).collect::<String>();
    let whole = run_with(&["batch", "-"], list(&names).as_bytes());
    let rows = whole.out.strip_prefix(HEADING).expect("a heading");
    assert!(rows.lines().count() > 100);
    let mut random = Random(3);
    for _ in 0..10 {
        let (mut rest, mut parts) = (&names[..], String::new());
        while !rest.is_empty() {
            let (part, more) = rest.split_at(1 + random.below(rest.len() as u64) as usize);
            parts += &match random.below(2) {
                0 => run_with(&["batch", "--rows", "-"], list(part).as_bytes()).out,
                _ => {
                    let mut words = vec!["batch", "--rows"];
                    words.extend(part.iter().map(String::as_str));
                    run(&words).out
                }
            };
            rest = more;
        }
        assert!(parts == rows);
    }
}

/// Rows come while more folders are still to be named.
#[test]
fn folders_are_taken_as_they_come() {
    let mut command = program();
    command.args(["batch", "-", "--rows"]);
    command.stdin(Stdio::piped()).stdout(Stdio::piped()).stderr(Stdio::null());
    let mut child = command.spawn().expect("lukhveri runs");
    let mut input = child.stdin.take().expect("a pipe");
    let mut rows = BufReader::new(child.stdout.take().expect("a pipe")).lines();
    for name in ["01", "kitchen", "01"] {
        writeln!(input, "{}", example(name).display()).expect("a name");
        let row = rows.next().expect("a row").expect("text");
        assert!(row.starts_with(&format!("examples/{name}/case.bin,0,")), "{row}");
        let count = if name == "01" { 2 } else { 4 };
        rows.by_ref().take(count).for_each(|row| assert!(row.is_ok()));
    }
    drop(input);
    assert_eq!(child.wait().expect("the end").code(), Some(0));
}

/// Where the reader goes away, the program ends, though more folders could come.
#[test]
fn a_reader_who_goes_away() {
    let mut command = program();
    command.args(["batch", "-"]);
    command.stdin(Stdio::piped()).stdout(Stdio::piped()).stderr(Stdio::piped());
    let mut child = command.spawn().expect("lukhveri runs");
    let mut input = child.stdin.take().expect("a pipe");
    drop(child.stdout.take());
    let _ = writeln!(input, "examples/01");
    let done = child.wait_with_output().expect("the end");
    assert_eq!(done.status.code(), Some(2));
    assert!(!String::from_utf8(done.stderr).expect("text").contains("standard output"));
    drop(input);
}

const POOLS: &str = "case,part,persons,names,cents,open,household,refusal,record,reason\r\n";

#[test]
fn pools_of_an_example() {
    let said = run(&["batch", "--amounts", "examples/choir"]);
    let wanted = format!(
        "{POOLS}\
examples/choir/case.bin,unit,0 1,Nato; Gela,10,yes,yes,,,\r
examples/choir/case.bin,unit,2,Rezo,0,no,no,,,\r
examples/choir/case.bin,unit,3,Soso,1000,no,yes,,,\r
examples/choir/case.bin,unplaced,0 2,Nato; Rezo,101,,,,,\r
"
    );
    assert_eq!((said.out.as_str(), said.status), (wanted.as_str(), Some(0)));
    let wanted_counts =
        "1 case: 1 answered, 0 refused, 0 unreadable; 4 persons; 3 units, 2 of them households";
    assert_eq!(counts(&said), wanted_counts);
    let rows = run(&["batch", "--amounts", "--rows", "examples/choir"]).out;
    assert_eq!(Some(rows.as_str()), wanted.strip_prefix(POOLS));
    assert!(said.err.contains("not taken for cases: README.md, printed.txt\n"), "{}", said.err);
    let said = run(&["batch", "examples/choir"]);
    assert!(said.out.starts_with(HEADING) && said.status == Some(0));
    assert!(said.err.contains("not taken for cases: README.md, amounts.csv, printed.txt\n"));
}

#[test]
fn pools_as_json_lines() {
    let folder = Folder::new("batch-pools-json");
    folder.write("plan.bin", &PAIR);
    folder.write("a.bin", &complete(3));
    folder.write("b.bin", &complete(2));
    folder.write("c.bin", &[1]);
    folder.write("names.txt", b"person 1 Anna\n");
    folder.write("amounts.csv", b"person,cents\n0,1\nAnna,2\n2,4\n");
    let said = on("batch", folder.path(), &["--amounts", "--json"]);
    assert_eq!(said.status, Some(2));
    let rows: Vec<Value> = said.out.split_inclusive('\n').map(json::read).collect();
    let here = folder.path().display();
    let first = format!(
        r#"{{"case":"{here}/a.bin","part":"unit","persons":[0,1],"names":[null,"Anna"],"cents":3,"open":false,"household":true}}"#
    );
    assert_eq!(said.out.lines().next(), Some(first.as_str()));
    assert_eq!((rows[1].at("cents").number(), rows[1].at("part").text()), (4, "unit"));
    assert_eq!((rows[2].at("part").text(), rows[2].at("open")), ("unplaced", &Value::Null));
    assert!(said.out.lines().nth(2).is_some_and(|row| row.ends_with(r#","household":null}"#)));
    assert_eq!((rows[2].at("persons").list().len(), rows[2].at("cents").number()), (0, 0));
    // The second case has nobody of the number 2; the third is refused before its amounts are looked at.
    let fault = "unreadable: amounts.csv: row 4: person 2 is not on the roster; take the row away, or correct the person";
    assert_eq!(rows[3].at("error").text(), fault);
    assert_eq!(rows[4].at("refusal").at("number").number(), 1);
    assert_eq!(rows.len(), 5);
}

/// Folders with amounts, without, with both files, with faults; none stops another.
#[test]
fn folders_with_and_without_amounts() {
    let folder = Folder::new("batch-amounts");
    let here = text(folder.path());
    let club = |name: &str, amounts: &[(&str, &[u8])]| {
        let own = folder.path().join(name);
        std::fs::create_dir(&own).expect("a folder");
        let file =
            |name: &str, bytes: &[u8]| std::fs::write(own.join(name), bytes).expect("a file");
        file("plan.bin", &PAIR);
        file("case.bin", &complete(3));
        amounts.iter().for_each(|(name, bytes)| file(name, bytes));
        own.to_str().expect("a path").to_string()
    };
    let bytes = [1, 0, 0, 0, 2, 0, 0, 0, 0, 1, 0, 0];
    let folders = [
        club("a", &[("amounts.bin", &bytes)]),
        club("b", &[]),
        club("c", &[("amounts.bin", &bytes), ("amounts.csv", b"person,cents\n")]),
        club("d", &[("amounts.bin", &bytes[..11])]),
        club("e", &[("amounts.csv", b"person,cents\n0,x\n1,y\n2,0\n")]),
        club("f", &[("amounts.csv", b"person,cents\n2,\xff\n")]),
        club("g", &[("amounts.csv", b"person,cents\n2,256\n0,1\n1,2\n")]),
        club("h", &[("amounts.bin", &bytes), ("other.bin", &complete(3))]),
    ];
    let words: Vec<&str> = ["batch", "--rows", "--amounts"]
        .into_iter()
        .chain(folders.iter().map(String::as_str))
        .collect();
    let said = run(&words);
    let pooled = |name: &str| {
        let case = format!("{here}/{name}/case.bin");
        format!(
            "{case},unit,0 1,,3,no,yes,,,\r\n{case},unit,2,,256,no,yes,,,\r\n{case},unplaced,,,0,,,,,\r\n"
        )
    };
    let none = "this folder has no amounts; write amounts.csv, with person,cents in its first row and then a row for each person of the roster, or amounts.bin";
    let two = "this folder has amounts.bin and amounts.csv, and nothing says which of them counts; take one away";
    let many = "amounts.bin says of no amount whose it is, and there are 2 cases; write amounts.csv, or give each case a folder";
    let wanted = [
        pooled("a"),
        format!("{here}/b/case.bin,,,,,,,,,\"unreadable: {none}\"\r\n"),
        format!("{here}/c/case.bin,,,,,,,,,\"unreadable: {two}\"\r\n"),
        format!(
            "{here}/d/case.bin,,,,,,,15,0,\"the list has 11 bytes, no multiple of 4; the roster has 3 persons, which makes 12 bytes\"\r\n"
        ),
        format!(
            "{here}/e/case.bin,,,,,,,,,\"unreadable: amounts.csv: row 2: 'x' is no whole number of cents; write digits alone, from 0 to 4294967295: 1250 for 12.50 (and 1 more fault)\"\r\n"
        ),
        format!(
            "{here}/f/case.bin,,,,,,,,,unreadable: amounts.csv: line 2 is no UTF-8 text; save the file as UTF-8\r\n"
        ),
        pooled("g"),
        format!("{here}/h/case.bin,,,,,,,,,\"unreadable: {many}\"\r\n"),
        format!("{here}/h/other.bin,,,,,,,,,\"unreadable: {many}\"\r\n"),
    ];
    assert_eq!(said.out.replace("\r\n", "\n"), wanted.concat().replace("\r\n", "\n"));
    assert_eq!(said.status, Some(2));
    assert_eq!(counts(&said), "9 cases: 2 answered, 1 refused, 6 unreadable; 6 persons; 4 units");
    for complaint in
        [format!("{here}/b: {none}"), format!("{here}/c: {two}"), format!("{here}/h: {many}")]
    {
        assert!(
            said.err.contains(&format!("lukhveri: {complaint}\n")),
            "{complaint}: {}",
            said.err
        );
    }
    assert_eq!(run(&["batch", "--amounts", &folders[0], &folders[6]]).status, Some(0));
    assert_eq!(run(&["batch", "--amounts", &folders[0], &folders[3]]).status, Some(1));
    // Amounts are no case, with or without --amounts.
    let said = run(&["batch", "--rows", &folders[2]]);
    let answered = "1 case: 1 answered, 0 refused, 0 unreadable; 3 persons; 2 units";
    assert_eq!((counts(&said), said.status), (answered, Some(0)));
    assert!(said.err.contains("not taken for cases: amounts.bin, amounts.csv\n"), "{}", said.err);
}

/// One table serves many cases over one plan, in order, however the work is split.
#[test]
fn pools_of_many_cases() {
    let folder = Folder::new("batch-pools");
    let here = text(folder.path());
    folder.write("plan.bin", &PAIR);
    folder
        .write("amounts.csv", b"person,cents\r\n2,4294967295\r\n1,4294967295\r\n0,4294967295\r\n");
    let mut wanted = POOLS.to_string();
    for number in 0..500 {
        let case = format!("{number:03}.bin");
        folder.write(&case, &complete(3));
        wanted += &format!(
            "{here}/{case},unit,0 1,,8589934590,no,yes,,,\r\n{here}/{case},unit,2,,4294967295,no,yes,,,\r\n{here}/{case},unplaced,,,0,,,,,\r\n"
        );
    }
    let said = on("batch", folder.path(), &["--amounts"]);
    assert!(said.out == wanted);
    assert_eq!(said.status, Some(0));
    let plan = folder.path().join("plan.bin");
    let said = on("batch", folder.path(), &["--amounts", "--plan", text(&plan)]);
    assert!(said.out == wanted);
}

/// Writes the roster of these words as a case of its own folder, in which everybody has one cent.
fn club(folder: &Folder, words: &str) -> String {
    let own = folder.path().join(words);
    std::fs::create_dir(&own).expect("a folder");
    let (plan, case) = roster(words);
    let amounts = [1, 0, 0, 0].repeat(words.replace(' ', "").len());
    for (name, bytes) in [("plan.bin", plan), ("case.bin", case), ("amounts.bin", amounts)] {
        std::fs::write(own.join(name), bytes).expect("a file");
    }
    text(&own).to_string()
}

/// The counts say how many units there are, and how many of them are households where some are not; with amounts or without.
#[test]
fn units_that_are_no_households() {
    let folder = Folder::new("batch-households");
    let clubs = ["e", "ee e", "oe", "b", "m e mm"].map(|words| club(&folder, words));
    let [alone, none, open, barred, mixed] = &clubs;
    for (folders, said) in [
        (
            vec![alone],
            "1 case: 1 answered, 0 refused, 0 unreadable; 1 person; 1 unit, which is no household",
        ),
        (
            vec![none],
            "1 case: 1 answered, 0 refused, 0 unreadable; 3 persons; 2 units, none of them a household",
        ),
        (vec![barred], "1 case: 1 answered, 0 refused, 0 unreadable; 1 person; 1 unit"),
        (vec![open, barred], "2 cases: 2 answered, 0 refused, 0 unreadable; 3 persons; 2 units"),
        (
            vec![alone, open],
            "2 cases: 2 answered, 0 refused, 0 unreadable; 3 persons; 2 units, 1 of them a household",
        ),
        (
            vec![mixed, none, open],
            "3 cases: 3 answered, 0 refused, 0 unreadable; 9 persons; 6 units, 3 of them households",
        ),
    ] {
        let folders: Vec<&str> = folders.into_iter().map(String::as_str).collect();
        for options in [&["batch"][..], &["batch", "--amounts"], &["batch", "--json", "--amounts"]]
        {
            let done = run(&[options, &folders].concat());
            assert_eq!((counts(&done), done.status), (said, Some(0)), "{options:?}");
        }
    }
}

/// The column and the member are of units alone.
#[test]
fn whether_a_unit_is_a_household() {
    let folder = Folder::new("batch-household");
    let [none, open, mixed] = ["ee e", "oe", "m e mm"].map(|words| club(&folder, words));
    let case = format!("{mixed}/case.bin");
    let rows = run(&["batch", "--rows", "--amounts", &mixed]).out;
    let wanted = format!(
        "{case},unit,0,,1,no,yes,,,\r\n{case},unit,1,,0,no,no,,,\r\n{case},unit,2 3,,2,no,yes,,,\r\n{case},unplaced,1,,1,,,,,\r\n"
    );
    assert_eq!(rows, wanted);
    let rows = run(&["batch", "--json", "--amounts", &none, &open]).out;
    let households = rows.split_inclusive('\n').map(|row| json::read(row).at("household").clone());
    let (yes, no) = (Value::Bool(true), Value::Bool(false));
    assert_eq!(households.collect::<Vec<_>>(), [no.clone(), no, Value::Null, yes, Value::Null]);
}

/// Kinds 5 and 6 have no units, and a refused case counts nobody.
#[test]
fn cases_without_units() {
    let folder = Folder::new("batch-no-units");
    let [(plan, incomplete), (_, inconsistent)] = without_units("e ee m");
    folder.write("plan.bin", &plan);
    folder.write("a.bin", &incomplete);
    folder.write("b.bin", &inconsistent);
    folder.write("c.bin", &incomplete[..5]);
    let said = on("batch", folder.path(), &[]);
    assert_eq!(counts(&said), "3 cases: 2 answered, 1 refused, 0 unreadable; 8 persons; 0 units");
}

#[test]
fn no_folder_at_all() {
    run(&["batch", "--rows"]).is_trouble("batch: a folder is wanted (lukhveri batch --help helps)");
    let said = run_with(&["batch", "-"], b"");
    assert_eq!((said.out.as_str(), said.status), (HEADING, Some(0)));
}
