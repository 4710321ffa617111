//! The bytes of docs/GUIDE.md, its commands, and its C. (Its Rust is a documentation test.)

use std::fs;
use std::os::unix::fs::symlink;
use std::path::{Path, PathBuf};
use std::process::Command;

fn root() -> &'static Path {
    Path::new(concat!(env!("CARGO_MANIFEST_DIR"), "/../.."))
}

fn guide() -> String {
    fs::read_to_string(root().join("docs/GUIDE.md")).expect("the guide")
}

#[test]
fn every_block_of_bytes_agrees() {
    let agreed = examples::guide::agrees(&guide()).unwrap_or_else(|what| panic!("{what}"));
    assert!(agreed >= 30, "{agreed} blocks were compared");
}

#[test]
fn a_wrong_byte_is_found() {
    let guide = "```plan\n01 01 01\n03 01 01\n```\n```case\n01 7f 01 01 01 07 00 00 00 00 00 00 00 00 01 00\n```\n```printed\nunits 3\n```\n";
    assert!(examples::guide::agrees(guide).is_err());
}

#[test]
fn a_wrong_pool_is_found() {
    let guide = "```plan\n01 01 01\n03 01 01\n```\n```case\n01 7f 01 01 01 03 00 00 00 00 00 00 00 00 01 00\n```\n```amounts\n5\n6\n```\n";
    let pools = |rows: &str| format!("{guide}```pools\n{rows}unplaced 0\n```\n");
    assert_eq!(examples::guide::agrees(&pools("0 5\n1 6\n")), Ok(1));
    assert!(examples::guide::agrees(&pools("0 5\n1 7\n")).is_err());
}

#[test]
fn a_wrong_row_is_found() {
    let guide = "```table\nkind,left,right,citation\nbase,0,64,1\n```\n";
    let turned = |row: &str| format!("{guide}```turned\n16 {row}\n```\n");
    assert_eq!(examples::guide::agrees(&turned("1")), Ok(1));
    assert!(examples::guide::agrees(&turned("2")).is_err());
}

/// The text of the first block with this mark.
fn block(mark: &str) -> String {
    let guide = guide();
    let (_, rest) = guide.split_once(&format!("```{mark}\n")).expect(mark);
    rest.split_once("```").expect("its end").0.to_string()
}

/// The program, called in a folder, with a command.
fn program(command: &str, folder: &Path) -> Command {
    let mut program = Command::new(env!("CARGO"));
    program.args(["run", "--quiet", "--release", "--manifest-path"]);
    program.arg(root().join("hosts/rust/Cargo.toml"));
    program.args(["--", command]).current_dir(folder);
    program
}

/// What the program prints of an example.
fn lukhveri(command: &str, example: &str) -> String {
    let mut program = program(command, root());
    let said = program.arg(root().join("examples").join(example)).output().expect(command).stdout;
    String::from_utf8_lossy(&said).into_owned()
}

#[test]
fn explain_says_so() {
    assert!(lukhveri("explain", "kitchen").contains(&block("explain kitchen")));
}

/// All that it prints, to the last byte.
#[test]
fn pool_says_so() {
    assert_eq!(lukhveri("pool", "choir"), block("pool choir"));
    assert_eq!(lukhveri("pool", "camp"), block("pool camp"));
    let table = fs::read_to_string(root().join("examples/choir/amounts.csv")).expect("amounts");
    assert_eq!(table.replace("\r\n", "\n"), block("pool amounts"));
}

/// All that it prints of the table of examples/rowing, and of the table that is refused.
#[test]
fn import_says_so() {
    let folder = folder("import");
    let _ = fs::remove_file(folder.join("plan.bin"));
    let import = |table: &Path| {
        let mut program = program("import", &folder);
        let said = program.arg(table).arg("plan.bin").output().expect("import").stdout;
        String::from_utf8_lossy(&said).into_owned()
    };
    let rowing = root().join("examples/rowing/rules.csv");
    assert_eq!(import(&rowing), block("import rowing"));
    let made = fs::read(folder.join("plan.bin")).expect("a plan");
    assert_eq!(made, fs::read(root().join("examples/rowing/plan.bin")).expect("a plan"));
    fs::write(folder.join("rules.csv"), block("table").replace('\n', "\r\n")).expect("a file");
    assert_eq!(import(Path::new("rules.csv")), block("import refused"));
}

/// A folder of its own for a test.
fn folder(name: &str) -> PathBuf {
    let folder = Path::new(env!("CARGO_TARGET_TMPDIR")).join(name);
    fs::create_dir_all(&folder).expect("a folder");
    folder
}

/// The standard output of the commands of a block, run in a folder. What they say otherwise counts as wrong.
fn run(mark: &str, folder: &Path) -> String {
    let commands = format!("set -e\n{}", block(mark));
    let ran = Command::new("sh").args(["-c", &commands]).current_dir(folder).output();
    let ran = ran.expect("a shell");
    assert!(ran.status.success(), "{ran:?}");
    assert_eq!(String::from_utf8_lossy(&ran.stderr), "");
    String::from_utf8_lossy(&ran.stdout).into_owned()
}

#[test]
fn digits_become_files() {
    let folder = folder("files");
    for name in ["plan", "case"] {
        fs::write(folder.join(format!("{name}.txt")), block(&format!("{name} 01"))).expect(name);
    }
    run("sh files", &folder);
    for file in ["plan.bin", "case.bin"] {
        let made = fs::read(folder.join(file)).expect(file);
        assert_eq!(made, fs::read(root().join("examples/01").join(file)).expect(file));
    }
}

#[test]
fn masks_are_printed() {
    assert_eq!(run("sh masks", root()), block("masks"));
}

/// The line is made for the root of the repository, whose parts it needs are linked to from a folder.
#[test]
fn the_c_program_runs() {
    let folder = folder("c");
    fs::write(folder.join("guide.c"), block("c")).expect("a file");
    for part in ["hosts", "target"] {
        let link = folder.join(part);
        if fs::symlink_metadata(&link).is_err() {
            symlink(root().join(part), &link).expect(part);
        }
    }
    let said = run("sh compile", &folder);
    assert_eq!(said, "person 0 kind 0\nperson 1 kind 0\nperson 2 kind 0\n");
}
