//! What docs/OFFICERS.md says in words: its story on examples/kitchen, the rest on the smallest inputs.

use std::fs;
use std::path::Path;

use lukhveri::{Line, LineKind, Persons, Role};

/// Two digits a byte; strokes part records.
fn bytes(hex: &str) -> Vec<u8> {
    let hex = hex.replace('_', "");
    let digit = |at: usize| u8::from_str_radix(&hex[at..at + 2], 16).expect("a byte");
    (0..hex.len()).step_by(2).map(digit).collect()
}

fn lines(plan: &[u8], case: &[u8]) -> Vec<Line> {
    lukhveri::answer(plan, case).expect("an answer").lines
}

/// The lines of examples/kitchen, with further records in its case.
fn kitchen(told: &str) -> Vec<Line> {
    let file = |name| {
        let folder = Path::new(env!("CARGO_MANIFEST_DIR")).join("../../examples/kitchen");
        fs::read(folder.join(name)).expect(name)
    };
    lines(&file("plan.bin"), &[file("case.bin"), bytes(told)].concat())
}

fn kinds(lines: &[Line]) -> Vec<LineKind> {
    lines.iter().map(|line| line.kind).collect()
}

/// Whether each line is decided and has the block beside it.
fn decided(lines: &[Line], blocks: &[&[u8]]) -> bool {
    let block = |persons: &&[u8]| Persons::of(persons).expect("persons");
    let wanted = blocks.iter().map(block).map(|block| (LineKind::Decided, block));
    lines.iter().map(|line| (line.kind, line.block)).eq(wanted)
}

fn open(line: &Line) -> (Vec<u8>, Vec<u8>) {
    (line.open_facts().collect(), line.open_decisions().collect())
}

#[test]
fn the_story() {
    let before = kitchen("");
    assert!(decided(&before[3..], &[&[3, 4], &[3, 4]]));
    for line in &before[..3] {
        assert_eq!((line.kind, open(line)), (LineKind::Membership, (vec![2], vec![0])));
    }
    assert!(decided(&kitchen("0407020007"), &[&[0, 1], &[0, 1], &[2], &[3, 4], &[3, 4]]));
    let yes = kitchen("0407020107");
    for line in &yes[..3] {
        assert_eq!((line.kind, open(line)), (LineKind::Membership, (vec![], vec![0])));
    }
    assert_eq!(before[3..], yes[3..]);
    let zura_asked = kitchen("030501010108");
    assert_eq!(before[..3], zura_asked[..3]);
    assert!(decided(&zura_asked[3..], &[&[3], &[4]]));
}

/// Zura's silence is a no by default, but not where the case says outright that it is unknown.
#[test]
fn no_default_where_it_is_said_to_be_unknown() {
    assert_eq!(kinds(&kitchen("03030109"))[3..], [LineKind::Membership; 2]);
}

/// Family 1 with the pair 0 and 1: complete, not complete, complete for another group.
#[test]
fn silence_in_a_register() {
    let plan = bytes("010101_020301020001_030200_042f00010001");
    let with = |family| lines(&plan, &bytes(&format!("017f0101010300000000000000000400_{family}")));
    assert!(decided(&with("0207010102"), &[&[0], &[1]]));
    assert_eq!(kinds(&with("02030101")), [LineKind::Membership; 2]);
    assert_eq!(kinds(&with("0207010202")), [LineKind::Membership; 2]);
}

/// Fact 0 is answered yes by two papers and stays open beside fact 1, which nobody told; with one paper it does not.
#[test]
fn two_papers_that_agree_stay_a_conflict() {
    let plan = bytes("010101_02000200_030200030201_042f00010001_042f01020102");
    let with = |told| lines(&plan, &bytes(&format!("017f0101010700000000000000000400_{told}")));
    let twice = with("0305000201030104");
    assert_eq!((twice[0].kind, open(&twice[0]).0), (LineKind::Membership, vec![0, 1]));
    assert_eq!(open(&with("030500010103")[0]).0, [1]);
}

#[test]
fn a_child_of_whom_the_plan_does_not_know() {
    let plan = bytes("010101_030101_040f00010001");
    let line = lines(&plan, &bytes("017f0101010700000000000000000100"))[2];
    assert_eq!((line.kind, line.role), (LineKind::Decided, Role::Member));
    assert_eq!(line.block, Persons::of(&[2]).expect("a set"));
}

/// Two parents and three children, an edge for each pair of them: a chain, unless a paragraph says that chains count.
#[test]
fn parents_and_children_are_a_chain() {
    let pairs = [(0, 2), (0, 3), (0, 4), (1, 2), (1, 3), (1, 4)];
    let edges: String =
        pairs.map(|(left, right)| format!("040f{left:02x}{right:02x}0001")).concat();
    let case = bytes("017f0101011f00000000000000000100");
    let with = |heading| lines(&bytes(&format!("{heading}_030101_{edges}")), &case);
    assert_eq!(kinds(&with("010101")), [LineKind::Discretion; 5]);
    assert!(decided(&with("01030109"), &[&[0, 1, 2, 3, 4][..]; 5]));
}

/// A bar and a status on one person: excluded.
#[test]
fn barred_and_excluded_is_excluded() {
    let plan = bytes("010101_030101_07070100000000000000_0001_0807000002");
    let line = lines(&plan, &bytes("017f0101010100000000000000000100"))[0];
    assert_eq!((line.kind, line.role), (LineKind::Decided, Role::Excluded));
}
