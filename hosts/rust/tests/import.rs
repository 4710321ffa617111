//! lukhveri import.

mod folder;
mod program;

use std::fs;
use std::os::unix::fs::{PermissionsExt, symlink};
use std::path::{Path, PathBuf};

use folder::Folder;
use program::json;
use program::{Said, example_file, program, run, run_with, said_with};

const HEADER: &str = "kind,left,right,citation\r\n";

/// A folder with a table, and the names of the table and of a plan there.
fn with_table(name: &str, table: &[u8]) -> (Folder, PathBuf, PathBuf) {
    let folder = Folder::new(name);
    folder.write("rules.csv", table);
    let [table, plan] = ["rules.csv", "plan.bin"].map(|name| folder.path().join(name));
    (folder, table, plan)
}

fn import(table: &Path, plan: &Path, words: &[&str]) -> Said {
    let paths = [table.as_os_str(), plan.as_os_str()];
    let words = words.iter().map(std::ffi::OsStr::new);
    run(&["import".as_ref()].into_iter().chain(paths).chain(words).collect::<Vec<_>>())
}

/// All files of a folder, hidden ones, too.
fn files(folder: &Folder) -> Vec<String> {
    let entries = fs::read_dir(folder.path()).expect("a folder");
    let name = |entry: fs::DirEntry| entry.file_name().into_string().expect("text");
    let mut names: Vec<String> = entries.map(|entry| name(entry.expect("a file"))).collect();
    names.sort();
    names
}

#[test]
fn a_plan_is_written() {
    let (folder, table, plan) = with_table("import", &example_file("rowing", "rules.csv"));
    let said = import(&table, &plan, &[]);
    let made = "3 Base edges, 1 Combination edge, 2 statuses, 40 bytes; the check passes it.\nPersons whom its rules name: 0,1,2,3,4,5,6.\n";
    assert_eq!((said.err.as_str(), said.status), ("", Some(0)));
    assert_eq!(said.out, format!("{} is written: {made}", plan.display()));
    assert_eq!(fs::read(&plan).expect("a plan"), example_file("rowing", "plan.bin"));
    assert_eq!(import(&table, &plan, &[]).out, format!("{} is replaced: {made}", plan.display()));
    assert_eq!(files(&folder), ["plan.bin", "rules.csv"]);
    assert_eq!(
        fs::read(&table).expect("the table"),
        example_file("rowing", "rules.csv"),
        "the table stays as it is"
    );
}

#[test]
fn as_json() {
    let rows = "base,0,1,5\r\nbase,0,1,5\r\nstatus,9,,1\r\n";
    let (_folder, table, plan) = with_table("import-json", format!("{HEADER}{rows}").as_bytes());
    let object = json::read(&import(&table, &plan, &["--json"]).out);
    assert_eq!(object.at("accepted"), &json::Value::Bool(true));
    assert_eq!(object.at("plan").text(), plan.to_str().expect("text"));
    assert_eq!(object.at("replaced"), &json::Value::Bool(false));
    let number = |name: &str| object.at(name).number();
    assert_eq!((number("bytes"), number("base_edges")), (23, 2));
    assert_eq!((number("combination_edges"), number("statuses")), (0, 1));
    assert_eq!(object.at("persons").list().len(), 3);
    let notes = object.at("notes").list();
    assert_eq!((notes.len(), notes[0].at("row").number()), (1, 2));
    assert_eq!(notes[0].at("words").text(), "row 2 says what row 1 says");
    let again = json::read(&import(&table, &plan, &["--json"]).out);
    assert_eq!(again.at("replaced"), &json::Value::Bool(true));
}

#[test]
fn a_table_is_checked_alone() {
    let (folder, table, _) = with_table("import-check", HEADER.as_bytes());
    let said = run(&["import".as_ref(), "--check".as_ref(), table.as_os_str()]);
    assert_eq!((said.err.as_str(), said.status), ("", Some(0)));
    assert_eq!(
        said.out,
        "The table is accepted. Its plan: 0 Base edges, 0 Combination edges, 0 statuses, 6 bytes; the check passes it. Nothing is written.\n\
         Note: the table has no rules.\n"
    );
    assert_eq!(files(&folder), ["rules.csv"]);
    let said = run(&["import", "--check", "--json", "examples/rowing/rules.csv"]);
    assert_eq!(json::read(&said.out).at("plan"), &json::Value::Null);
    let said = run_with(&["import", "--check", "-"], &example_file("rowing", "rules.csv"));
    assert!(said.status == Some(0) && said.out.starts_with("The table is accepted. "), "{said:?}");
}

/// Row, line and field, what is wrong, what would mend it; nothing is written, and what stood there stands there still.
#[test]
fn a_refusal() {
    let rows = "base,0,1,1\r\nstatus,5,,3\r\ncombination,3,4,64\r\nbase,x,1,1\r\n";
    let (folder, table, plan) = with_table("import-no", format!("{HEADER}{rows}").as_bytes());
    let said = import(&table, &plan, &[]);
    assert_eq!(said.status, Some(1));
    assert_eq!(
        said.out,
        "Refused 16: row 3 of the table (line 4 of the file), field citation: '64' is outside 0 to 63.\n\
         What would mend it: write a number from 0 to 63.\n"
    );
    assert_eq!(said.err, format!("lukhveri: {}: refused 16, row 3\n", table.display()));
    assert_eq!(files(&folder), ["rules.csv"]);
    folder.write("plan.bin", &example_file("01", "plan.bin"));
    let said = import(&table, &plan, &[]);
    assert!(
        said.out.ends_with(&format!("to 63.\n{} stays as it was.\n", plan.display())),
        "{said:?}"
    );
    let said = import(&table, &plan, &["--json"]);
    assert_eq!(said.status, Some(1));
    let refusal = json::read(&said.out).at("refusal").clone();
    assert_eq!(refusal.at("hint"), &json::Value::Null);
    assert_eq!((refusal.at("number").number(), refusal.at("record").number()), (16, 3));
    assert_eq!((refusal.at("file").text(), refusal.at("line").number()), ("table", 4));
    assert_eq!(refusal.at("field").text(), "citation");
    assert_eq!(refusal.at("finding").text(), "'64' is outside 0 to 63");
    assert_eq!(refusal.at("remedy").text(), "write a number from 0 to 63");
    assert_eq!(
        refusal.at("words").text(),
        "refused 16: row 3 of the table (line 4 of the file), field citation: '64' is outside 0 to 63"
    );
    assert_eq!(fs::read(&plan).expect("a plan"), example_file("01", "plan.bin"));
    let said = run_with(&["import", "-", "plan.bin"], b"kind");
    assert_eq!(said.err, "lukhveri: standard input: refused 16, row 0\n");
}

/// Files in place of tables are easy slips, and words in the wrong order another.
#[test]
fn files_that_are_no_tables() {
    let (folder, table, plan) = with_table("import-slips", HEADER.as_bytes());
    folder.write("plan.bin", &example_file("01", "plan.bin"));
    let said = import(&plan, &table, &[]);
    let path = plan.display();
    let err = format!(
        "lukhveri: {path}: refused 16, row 0\nlukhveri: {path}: this reads like a plan; a table is wanted\n"
    );
    assert_eq!((said.err, said.status), (err, Some(1)));
    assert_eq!(fs::read(&table).expect("a table"), HEADER.as_bytes());
    assert!(said.out.ends_with("rules.csv stays as it was.\n"), "{}", said.out);
    let said = import(&plan, &table, &["--json"]);
    let hint = json::read(&said.out).at("refusal").at("hint").text().to_string();
    assert_eq!(hint, "this reads like a plan; a table is wanted");
    let said = run(&["import", "--check", "examples/rowing/rules.fods"]);
    assert_eq!(said.status, Some(1));
    assert!(said.out.contains(
        "the file begins with <, as .fods, XML and HTML files do.\nWhat would mend it: export the sheet as CSV"
    ));
    let odd = folder.path().join("a\nb.bin");
    let said = import(&table, &odd, &[]);
    assert!(said.status == Some(0) && said.out.contains("/a?b.bin is written: "), "{said:?}");
}

/// LF is read as CR LF where that is asked for, and only there.
#[test]
fn line_ends_of_unix() {
    let (folder, table, plan) =
        with_table("import-unix", &example_file("rowing", "libreoffice.csv"));
    let said = import(&table, &plan, &[]);
    assert_eq!(
        (said.out.as_str(), said.status),
        (
            "Refused 16: row 0 of the table, the header (line 1 of the file): the lines end in LF alone, as on Unix.\n\
             What would mend it: save the table with line ends of CR LF, as on Windows.\n\
             With --line-ends, LF is read as CR LF.\n",
            Some(1)
        )
    );
    assert_eq!(files(&folder), ["rules.csv"]);
    let said = import(&table, &plan, &["--json"]);
    let hint = json::read(&said.out).at("refusal").at("hint").text().to_string();
    assert_eq!(hint, "with --line-ends, LF is read as CR LF");
    let said = import(&table, &plan, &["--line-ends"]);
    assert_eq!((said.err.as_str(), said.status), ("", Some(0)));
    assert_eq!(fs::read(&plan).expect("a plan"), example_file("rowing", "plan.bin"));
    assert_eq!(fs::read(&table).expect("a table"), example_file("rowing", "libreoffice.csv"));
    folder.write("rules.csv", b"kind,left,right,citation\nbase,0,1\n");
    let said = import(&table, &plan, &["--line-ends"]);
    assert!(
        said.out.starts_with(
            "Refused 16: row 1 of the table (line 2 of the file): it has three fields "
        )
    );
    assert!(!said.out.contains("--line-ends"), "{}", said.out);
}

#[test]
fn tables_that_cannot_be_read() {
    let (folder, _, plan) = with_table("import-unread", b"");
    import(folder.path(), &plan, &[]).is_trouble("this is a folder, not a file");
    import(Path::new("/dev/null"), &plan, &[])
        .is_trouble("not a file; write - to have the standard input read");
    import(&folder.path().join("none.csv"), &plan, &[])
        .is_trouble("none.csv: there is no such file");
    let input = fs::File::open(folder.path()).expect("a folder");
    let said = program().args(["import", "-", "plan.bin"]).stdin(input).output().expect("it runs");
    assert_eq!(
        String::from_utf8(said.stderr).expect("text"),
        "lukhveri: standard input: it cannot be read: Is a directory\n"
    );
    assert_eq!(files(&folder), ["rules.csv"]);
}

/// However long a table is, it is refused by its first row at fault, as the whole of it would be.
#[test]
fn long_tables() {
    let rules = |count: usize| format!("{HEADER}{}", "status,3,,7\r\n".repeat(count));
    let rest = vec![b'x'; 1 << 21];
    for (start, row) in [
        (String::new(), 0),
        ("\"kind".to_string(), 0),
        (rules(0), 1),
        (rules(20) + "\"", 21),
        (rules(20) + "base,0,1,\"5\"", 21),
        (rules(20) + "base,0,1,", 21),
        (rules(32), 33),
        (rules(33), 33),
        (rules(100_000), 33),
    ] {
        let bytes = [start.as_bytes(), &rest].concat();
        let whole = lukhveri::Plan::from_table(&bytes).expect_err("refused");
        assert_eq!((whole.number(), whole.record()), (16, row));
        let (folder, table, plan) = with_table("import-long", &bytes);
        let wanted = format!("lukhveri: {}: refused 16, row {row}\n", table.display());
        for words in [&[][..], &["--line-ends"]] {
            let said = import(&table, &plan, words);
            assert_eq!((said.err.as_str(), said.status), (wanted.as_str(), Some(1)));
            assert!(said.out.starts_with(&format!("Refused 16: row {row} of the table")));
        }
        let said = run_with(&["import", "--check", "-"], &bytes);
        assert_eq!(said.err, format!("lukhveri: standard input: refused 16, row {row}\n"));
        assert_eq!(files(&folder), ["rules.csv"]);
    }
}

/// Nothing is written over the table, over what is no plan, or over what is no file; and nothing is left behind.
#[test]
fn plans_that_cannot_be_written() {
    let (folder, table, plan) = with_table("import-unwritten", HEADER.as_bytes());
    import(&table, &table, &[]).is_trouble("rules.csv: this is the table; name another file");
    let case = folder.path().join("case.bin");
    folder.write("case.bin", &example_file("01", "case.bin"));
    import(&table, &case, &[]).is_trouble(
        "case.bin: this file is no plan, and it is not replaced; name another, or take it away",
    );
    assert_eq!(fs::read(&case).expect("a case"), example_file("01", "case.bin"));
    import(&table, folder.path(), &[]).is_trouble("this is a folder");
    import(&table, Path::new("/dev/null"), &[])
        .is_trouble("/dev/null: this is a device, a pipe or a socket, not a file");
    import(&table, &folder.path().join("none/plan.bin"), &[])
        .is_trouble("plan.bin: there is no such folder: ");
    import(&table, &table.join("plan.bin"), &[])
        .is_trouble("plan.bin: it cannot be written: Not a directory");
    folder.write("plan.bin", &example_file("01", "plan.bin"));
    fs::set_permissions(&plan, fs::Permissions::from_mode(0o444)).expect("permissions");
    import(&table, &plan, &[]).is_trouble("plan.bin: it cannot be written: the file is read-only");
    assert_eq!(fs::read(&plan).expect("a plan"), example_file("01", "plan.bin"));
    let lost = folder.path().join("lost.bin");
    symlink("nowhere.bin", &lost).expect("a link");
    import(&table, &lost, &[]).is_trouble("lost.bin: this is a link that leads nowhere");
    assert!(lost.symlink_metadata().expect("a link").is_symlink());
    assert_eq!(files(&folder), ["case.bin", "lost.bin", "plan.bin", "rules.csv"]);
}

/// The plan is whole before anything is said of it.
#[test]
fn what_cannot_be_said() {
    let (_folder, table, plan) = with_table("import-unsaid", HEADER.as_bytes());
    let full = fs::File::options().write(true).open("/dev/full").expect("a full device");
    let status = program()
        .arg("import")
        .args([&table, &plan])
        .stdout(full)
        .output()
        .expect("it runs")
        .status;
    assert_eq!(status.code(), Some(2));
    assert_eq!(fs::read(&plan).expect("a plan"), [1, 1, 1, 3, 1, 1]);
}

/// A file that is called - is no standard input.
#[test]
fn a_plan_called_dash() {
    let folder = Folder::new("import-dash");
    for what in ["./- is written: ", "./- is replaced: "] {
        let mut command = program();
        command.current_dir(folder.path()).args(["import", "-", "./-"]);
        let said = said_with(command, HEADER.as_bytes());
        assert!(said.status == Some(0) && said.out.starts_with(what), "{said:?}");
    }
    assert_eq!(fs::read(folder.path().join("-")).expect("a plan"), [1, 1, 1, 3, 1, 1]);
}

/// Links are followed, and permissions kept; an empty file is nobody's work.
#[test]
fn plans_that_are_replaced() {
    let (folder, table, plan) = with_table("import-replaced", HEADER.as_bytes());
    folder.write("real.bin", b"");
    let real = folder.path().join("real.bin");
    fs::set_permissions(&real, fs::Permissions::from_mode(0o640)).expect("permissions");
    symlink("real.bin", &plan).expect("a link");
    let said = import(&table, &plan, &[]);
    assert!(said.status == Some(0) && said.out.contains("plan.bin is replaced: "), "{said:?}");
    assert_eq!(fs::read(&real).expect("a plan"), [1, 1, 1, 3, 1, 1]);
    assert_eq!(real.metadata().expect("a file").permissions().mode() & 0o777, 0o640);
    assert!(plan.symlink_metadata().expect("a link").is_symlink());
    assert_eq!(files(&folder), ["plan.bin", "real.bin", "rules.csv"]);
}

/// A plan that was made so answers the case of the example.
#[test]
fn a_case_over_it() {
    let (folder, table, plan) = with_table("import-case", &example_file("rowing", "rules.csv"));
    folder.write("case.bin", &example_file("rowing", "case.bin"));
    assert_eq!(import(&table, &plan, &[]).status, Some(0));
    let said = run(&["list".as_ref(), folder.path().as_os_str()]);
    assert_eq!(said.out.into_bytes(), example_file("rowing", "printed.txt"));
}
