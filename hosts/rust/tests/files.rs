//! Files are read no further than they can be long, and what is no file is said.

mod folder;

use std::path::Path;

use folder::Folder;
use lukhveri::amounts::Amounts;
use lukhveri::files::{self, AMOUNTS_LENGTH, CASE_LENGTH, Fault, NAMES_LENGTH, PLAN_LENGTH};
use lukhveri::names::Names;

fn says(result: Result<Vec<u8>, files::FileFault>) -> String {
    result.expect_err("a fault").to_string()
}

#[test]
fn what_is_no_file_is_said() {
    let folder = Folder::new("no-file");
    let missing = folder.path().join("plan.bin");
    let said = says(files::read_plan(&missing));
    assert_eq!(said, format!("{}: there is no such file", missing.display()));
    assert!(says(files::read_case(folder.path())).ends_with(": this is a folder, not a file"));
    let device = says(files::read_plan(Path::new("/dev/zero")));
    assert_eq!(device, "/dev/zero: this is a device, a pipe or a socket, not a file");
    folder.write("plan.bin", &[]);
    assert!(files::read_plan(&missing.join("deeper")).is_err());
    assert_eq!(files::read_plan(&missing), Ok(Vec::new()));
}

#[test]
fn nothing_is_read_that_cannot_matter() {
    let folder = Folder::new("long");
    let path = folder.path().join("long.bin");
    let file = std::fs::File::create(&path).expect("a file");
    file.set_len(1 << 40).expect("a file with a hole");
    assert_eq!(files::read_plan(&path).map(|bytes| bytes.len()), Ok(PLAN_LENGTH));
    assert_eq!(files::read_case(&path).map(|bytes| bytes.len()), Ok(CASE_LENGTH));
    let fault = files::read_names(&path).expect_err("too long").fault;
    assert_eq!(fault, Fault::TooLong { most: NAMES_LENGTH });
}

/// As many and as long records as pass one by one, and one behind them that is wrong: the part that is read is refused as the whole is, and
/// the same is said of it.
#[test]
fn the_part_that_is_read_tells_as_much_as_the_whole() {
    let (plan, case) = (longest_plan(), longest_case());
    assert_eq!((plan.len(), case.len()), (10_564, 3_792));
    assert_eq!(lukhveri::check(&plan).map_err(|refusal| refusal.number()), Err(4));
    let last: [&[u8]; 5] = [&[8, 7, 0, 0, 0], &[5, 63, 1], &[8, 7, 64, 0, 0], &[1], &[9]];
    last.iter().for_each(|record| same_said(&[&plan, *record].concat(), PLAN_LENGTH, None));
    let small = [1, 1, 0, 2, 0, 2, 3, 0, 0, 3, 1, 1];
    let last: [&[u8]; 4] = [&[5, 1, 0], &[3, 7, 1], &[5, 2, 0], &[6]];
    last.iter().for_each(|record| same_said(&[&case, *record].concat(), CASE_LENGTH, Some(&small)));
}

/// Of a plan; of a case where there is a plan beside it.
fn same_said(start: &[u8], length: usize, plan: Option<&[u8]>) {
    let whole = [start, &[255; 2_000]].concat();
    let said = [&whole[..], &whole[..length]].map(|bytes| {
        let (plan, case) = plan.map_or((bytes, &[][..]), |plan| (plan, bytes));
        let refusal = lukhveri::answer(plan, case).expect_err("refused");
        (refusal, refusal.finding(plan, case, &Names::default()))
    });
    assert!(said[0].1.is_some() && said[0] == said[1], "{said:?}");
}

fn longest_plan() -> Vec<u8> {
    let (mut plan, children) = (vec![1, 3, 0, 0], (0..16).collect::<Vec<u8>>());
    (0..64).for_each(|number| plan.extend([2, 3, 0, 4, 0, 0, 0, number]));
    (0..256).for_each(|_| plan.extend([&[3, 4, 16], &children[..]].concat()));
    (0..64).for_each(|_| plan.extend([&[4, 63, 0, 1, 0, 0, 16], &children[..]].concat()));
    let edges: Vec<u8> = (0..64).flat_map(|edge| [edge, 1]).collect();
    for _ in 0..16 {
        let head = [5, 63, 1, 0, 0, 0, 0, 0, 0, 0, 0, 0, 0, 1, 0, 0, 64];
        plan.extend([&head, &edges[..], &[16], &children[..]].concat());
    }
    (0..32).for_each(|_| plan.extend([6, 63, 1, 0, 0, 0, 0, 0, 0, 0, 1, 0, 0, 1, 0, 1, 0, 0]));
    (0..32).for_each(|_| plan.extend([7, 7, 1, 0, 0, 0, 0, 0, 0, 0, 0, 0]));
    (0..32).for_each(|_| plan.extend([8, 7, 0, 0, 0]));
    plan
}

fn longest_case() -> Vec<u8> {
    let mut case = vec![1, 127, 0, 1, 1, 1, 0, 0, 0, 0, 0, 0, 0, 0, 0, 16];
    (0..16).for_each(|family| case.extend([2, 7, family, 1, 0]));
    (0..64).for_each(|_| case.extend([&[3, 7, 0, 0, 16], &[1; 32][..]].concat()));
    (0..256).for_each(|_| case.extend([4, 7, 1, 1, 0]));
    (0..16).for_each(|_| case.extend([5, 1, 0]));
    case
}

#[test]
fn amounts_of_a_folder() {
    let folder = Folder::new("amounts");
    let says = || files::read_amounts(folder.path()).expect_err("a fault").to_string();
    let none =
        format!("{}: this folder has no amounts; write amounts.csv, ", folder.path().display());
    assert!(says().starts_with(&none), "{}", says());
    folder.write("amounts.csv", b"person,cents\n0,1\n");
    let text = "person,cents\n0,1\n".to_string();
    assert_eq!(files::read_amounts(folder.path()), Ok(Amounts::Table(text)));
    folder.write("amounts.bin", &[1, 0, 0, 0]);
    assert!(says().ends_with("nothing says which of them counts; take one away"), "{}", says());
    std::fs::remove_file(folder.path().join("amounts.csv")).expect("a file");
    assert_eq!(files::read_amounts(folder.path()), Ok(Amounts::Bytes(vec![1, 0, 0, 0])));
    let path = folder.path().join("amounts.bin");
    std::fs::File::create(&path).and_then(|file| file.set_len(1 << 40)).expect("a long file");
    assert_eq!(files::read_amounts(folder.path()), Ok(Amounts::Bytes(vec![0; AMOUNTS_LENGTH])));
    std::fs::rename(&path, folder.path().join("amounts.csv")).expect("a file");
    assert!(says().ends_with("amounts.csv: it is longer than 1048576 bytes"), "{}", says());
    folder.write("amounts.csv", b"person,cents\n\xff,1\n");
    assert!(
        says().ends_with("amounts.csv: line 2 is no UTF-8 text; save the file as UTF-8"),
        "{}",
        says()
    );
}

#[test]
fn names_from_a_file() {
    let folder = Folder::new("names");
    let path = folder.path().join("names.txt");
    assert_eq!(files::read_names(&path).expect_err("missing").fault, Fault::Missing);
    assert_eq!(files::read_names_if_any(&path).expect("no names").person(0), "person 0");
    folder.write("names.txt", "\u{feff}person 0 Éva\r\n".as_bytes());
    assert_eq!(files::read_names_if_any(&path).expect("names").person(0), "Éva");
    folder.write("names.txt", b"person 0 Eva\nperson 1 \xff\n");
    let fault = files::read_names_if_any(&path).expect_err("no text");
    assert_eq!(fault.fault, Fault::NoText { line: 2 });
    folder.write("names.txt", b"house 0 Eva\n");
    let said = files::read_names(&path).expect_err("no kind").to_string();
    assert!(said.starts_with(&format!("{}: line 1: 'house'", path.display())));
}
