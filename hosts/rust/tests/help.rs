//! The program as a whole: help, version, man page, wrong use, output that cannot be written.

mod folder;
mod program;

use std::process::{Command, Stdio};

use program::{program, root, run};

const COMMANDS: [&str; 8] =
    ["check", "import", "list", "explain", "show", "circle", "pool", "batch"];

/// The help of the program and of each command.
fn all_helps() -> Vec<String> {
    let mut all = vec![help(&["--help"])];
    all.extend(COMMANDS.map(|command| help(&["help", command])));
    all
}

fn help(words: &[&str]) -> String {
    let said = run(words);
    assert_eq!((said.err.as_str(), said.status), ("", Some(0)), "{words:?}");
    said.out
}

#[test]
fn help_is_there_in_every_way() {
    let main = help(&["--help"]);
    assert!(main.starts_with("usage: lukhveri COMMAND ...\n"));
    assert_eq!(main, help(&["-h"]));
    assert_eq!(main, help(&["help"]));
    for command in COMMANDS {
        let text = help(&[command, "--help"]);
        assert!(text.starts_with(&format!("usage: lukhveri {command} ")), "{text}");
        assert_eq!(text, help(&["help", command]));
        assert_eq!(text, help(&[command, "nowhere", "-h"]));
        assert!(main.contains(&format!("    {command} ")), "{command} is not in the main help");
        assert!(text.contains("\nExit status: 0 ") && text.contains("\nExamples"), "{command}");
    }
}

#[test]
fn help_fits_a_terminal() {
    for line in all_helps().iter().flat_map(|text| text.lines()) {
        assert!(line.len() <= 80 && line.is_ascii() && !line.ends_with(' '), "{line}");
    }
}

/// A table for several cases is pooled for each: who sums up the whole column is warned in both places.
#[test]
fn sums_are_per_case() {
    let readme = std::fs::read_to_string(root().join("hosts/README.md")).expect("a file");
    for text in [help(&["help", "batch"]), readme] {
        let text = text.split_whitespace().collect::<Vec<_>>().join(" ");
        assert!(text.contains("With one amounts.csv for several cases each case pools the whole table anew, so a column sum over several cases of one folder counts the same amounts again; sums are per case."));
    }
}

/// The last row of the lister says units and counts households: whoever reads about it is told.
#[test]
fn what_a_household_is() {
    let header = std::fs::read_to_string(root().join("hosts/lukhveri.h")).expect("a file");
    let readme = std::fs::read_to_string(root().join("hosts/README.md")).expect("a file");
    let helps = ["list", "explain", "batch", "pool"].map(|command| help(&["help", command]));
    for text in helps.into_iter().chain([header, readme]) {
        let text = text.replace('*', "").split_whitespace().collect::<Vec<_>>().join(" ");
        assert!(text.contains("household") && text.contains("is excluded"), "{text}");
    }
    let list = help(&["list", "--help"]);
    assert!(list.contains("a last row, units, with the number of households."), "{list}");
}

/// The commands below "Examples".
fn examples(help: &str) -> Vec<String> {
    let (_, below) = help.split_once("\nExamples, in the repository's root:\n").expect("examples");
    below.lines().filter_map(|line| line.strip_prefix("    ")).map(str::to_string).collect()
}

fn installed(tool: &str) -> bool {
    let found = Command::new("sh").args(["-c", &format!("command -v {tool}")]).output();
    found.is_ok_and(|found| found.status.success())
}

/// Every example of a help text works as it stands there, in a folder that has examples/.
#[test]
fn examples_of_the_help_work() {
    let here = folder::Folder::new("help-examples");
    let link = std::os::unix::fs::symlink(root().join("examples"), here.path().join("examples"));
    link.expect("a link");
    let bin = std::path::Path::new(env!("CARGO_BIN_EXE_lukhveri")).parent().expect("a folder");
    let path = format!("{}:{}", bin.display(), std::env::var("PATH").unwrap_or_default());
    let all: Vec<String> = all_helps().iter().flat_map(|text| examples(text)).collect();
    assert!(all.len() >= 15, "{all:?}");
    for line in all.iter().filter(|line| !line.contains("parallel ") || installed("parallel")) {
        let mut shell = Command::new("sh");
        shell.current_dir(here.path()).env("PATH", &path).args(["-c", line]);
        let done = shell.output().expect("a shell");
        assert!(done.status.success(), "{line}: {done:?}");
        assert!(!done.stdout.is_empty() || line.contains('>'), "{line}");
    }
}

#[test]
fn version_tells_what_is_linked() {
    let said = run(&["--version"]);
    assert_eq!(said, run(&["-V"]));
    let lines: Vec<&str> = said.out.lines().collect();
    assert_eq!(lines[0], format!("lukhveri {}", env!("CARGO_PKG_VERSION")));
    assert!(lines[1].starts_with("kit: ") && lines[1].len() > 5, "{said:?}");
    let library = root().join("target/staticlib/libexports.a");
    let sum = Command::new("sha256sum").arg(library).output().expect("sha256sum").stdout;
    let sum = String::from_utf8(sum).expect("text");
    let sum = sum.split(' ').next().expect("a sum");
    assert_eq!(lines[2], format!("library: libexports.a, sha256 {sum}"));
}

#[test]
fn the_man_page_is_made_of_the_help_texts() {
    let page = run(&["--man"]).out;
    assert!(page.starts_with(".TH LUKHVERI 1 "));
    for part in ["NAME", "SYNOPSIS", "DESCRIPTION", "COMMANDS"] {
        assert!(page.contains(&format!("\n.SH {part}\n")), "{part}");
    }
    for command in COMMANDS {
        let text = help(&["help", command]);
        let paragraph = text.split("\n\n").nth(1).expect("a paragraph");
        assert!(page.contains(&paragraph.replace('-', "\\-")), "{command}: {paragraph}");
    }
}

#[test]
fn wrong_words_are_said_in_one_line() {
    let empty: [&str; 0] = [];
    run(&empty)
        .is_trouble("a command is wanted: check, import, list, explain, show, circle, pool, batch");
    run(&["chek"]).is_trouble("there is no command 'chek', only check,");
    run(&["--chek"]).is_trouble("there is no option --chek (lukhveri --help helps)");
    run(&["help", "chek"]).is_trouble("there is no command 'chek'");
    run(&["help", "check", "list"]).is_trouble("help takes one command");
    for command in COMMANDS {
        let helps = format!("(lukhveri {command} --help helps)\n");
        run(&[command]).is_trouble(&helps);
        run(&[command, "-x", "a"]).is_trouble(&format!("there is no option -x {helps}"));
        run(&[command, "a", "--json=1"]).is_trouble(&format!("--json takes no value {helps}"));
    }
    run(&["list", ""]).is_trouble("list: an empty word is given (lukhveri list --help helps)");
    for command in ["check", "list", "explain", "pool"] {
        run(&[command, "a", "b"]).is_trouble("'b' is a word too many");
    }
    run(&["import", "a"]).is_trouble("a file for the plan is wanted behind a table");
    run(&["import", "a", "b", "c"]).is_trouble("'c' is a word too many");
    run(&["import", "--check", "a", "b"]).is_trouble("'b' is a word too many");
    run(&["import", "a", "-"]).is_trouble("the plan wants the name of a file");
    for command in ["show", "circle"] {
        run(&[command, "a"]).is_trouble("is wanted behind a folder");
        run(&[command, "a", "0", "b"]).is_trouble("'b' is a word too many");
    }
    run(&["explain", "a", "--person"]).is_trouble("--person wants a value");
    run(&["explain", "a", "--person", "1", "--person=2"]).is_trouble("--person is given twice");
    run(&["list", "--", "-x"]).is_trouble("-x/plan.bin: there is no such file");
}

/// Each command, with words that make it print something.
const PRINTING: [&[&str]; 11] = [
    &["--help"],
    &["--version"],
    &["check", "examples/kitchen/plan.bin"],
    &["import", "--check", "examples/rowing/rules.csv"],
    &["list", "examples/kitchen"],
    &["explain", "examples/kitchen"],
    &["show", "examples/kitchen", "0"],
    &["circle", "examples/kitchen", "0"],
    &["pool", "examples/choir"],
    &["batch", "examples/01"],
    &["batch", "--amounts", "examples/choir"],
];

#[test]
fn output_that_cannot_be_written() {
    for words in PRINTING {
        let full = std::fs::File::options().write(true).open("/dev/full").expect("/dev/full");
        let done = program().args(words).stdout(full).output().expect("lukhveri runs");
        let said = String::from_utf8(done.stderr).expect("text");
        assert_eq!(done.status.code(), Some(2), "{words:?}");
        assert!(said.contains("lukhveri: standard output: No space left on device\n"), "{said}");
    }
}

/// A reader who has gone away is told nothing.
#[test]
fn a_closed_pipe() {
    for words in PRINTING {
        let mut child = program()
            .args(words)
            .stdout(Stdio::piped())
            .stderr(Stdio::piped())
            .stdin(Stdio::null())
            .spawn()
            .expect("lukhveri runs");
        drop(child.stdout.take());
        let done = child.wait_with_output().expect("lukhveri ends");
        let said = String::from_utf8(done.stderr).expect("text");
        assert!(!said.contains("standard output"), "{said}");
        assert!(matches!(done.status.code(), Some(2 | 0)), "{words:?}: {said}");
    }
}
