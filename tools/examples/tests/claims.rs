//! What the guide says in words, on the smallest inputs: refusals with their records, and what open fields leave out.

use lukhveri::{LINE, Line, LineKind, Persons};

const FIRST_PLAN: &str = "010101030101040f00010001";
const FIRST_CASE: &str = "017f0101010700000000000000001000";

/// Plan, case, number, record, and what is wrong.
type Row = (&'static str, &'static str, u8, u64, &'static str);

const REFUSED: &[Row] = &[
    ("010101030101040f000100", FIRST_CASE, 1, 2, "cut short"),
    ("010101030101040f00400001", FIRST_CASE, 1, 2, "a person above 63"),
    ("010101040f00010001030101", FIRST_CASE, 1, 2, "a kind lower than the one before"),
    ("010101032001", FIRST_CASE, 1, 1, "a bit that does not exist"),
    ("010101010101", FIRST_CASE, 2, 1, "a second heading"),
    ("", FIRST_CASE, 3, 0, "an empty file"),
    ("030101", FIRST_CASE, 3, 0, "no heading at the start"),
    ("0101010301010407000100", FIRST_CASE, 3, 2, "an edge without a citation"),
    ("010101030101040f00010501", FIRST_CASE, 4, 2, "a condition that is no node"),
    ("010101030200", FIRST_CASE, 4, 1, "a node of no fact"),
    ("010101031000", FIRST_CASE, 4, 1, "a node that uses itself"),
    (
        "0101010203010100030101063f01000000000000000100010100010001",
        FIRST_CASE,
        4,
        3,
        "an election on a relation fact",
    ),
    (FIRST_PLAN, "017f0101010700000000000000001000030500010101", 4, 1, "an answer to no fact"),
    (
        "010101020301020001030200",
        "017f01010107000000000000000010000407000101",
        4,
        1,
        "a relation without a record of its family",
    ),
    (
        "010101020301020001030200",
        "017f010101070000000000000000100002030101030500010101",
        4,
        2,
        "a relation fact answered as a boolean one",
    ),
    ("01010102030201000203010100", FIRST_CASE, 5, 2, "families that fall"),
    ("01010102030101000200", FIRST_CASE, 5, 2, "a boolean fact behind a relation fact"),
    (
        "010101030101042f000100010517010000000000000000010200010001",
        FIRST_CASE,
        5,
        3,
        "an edge decided twice in a cut",
    ),
    (
        FIRST_PLAN,
        "017f01010107000000000000000010000203010102030101",
        5,
        2,
        "a family with two records",
    ),
    (
        "0101010200030200",
        "017f0101010700000000000000001000030500010101030500010101",
        5,
        2,
        "a boolean fact with two records",
    ),
    (
        "010101030101042f00010001050701000000000000000001",
        FIRST_CASE,
        6,
        3,
        "a crossing without a decision",
    ),
    (
        "0101010200030101050f0100000000000000000100010101063f01000000000000000100010100010201",
        FIRST_CASE,
        7,
        4,
        "elections on one fact that differ",
    ),
    (FIRST_PLAN, "01770101010300000000000000000100", 8, 0, "a period that is not complete"),
    (FIRST_PLAN, "017f0201010300000000000000000100", 9, 0, "another relation than the plan's"),
    (FIRST_PLAN, "017f0100010300000000000000000100", 9, 0, "an empty scope"),
    (FIRST_PLAN, "017f0101010000000000000000000100", 9, 0, "an empty roster"),
    (
        FIRST_PLAN,
        "017f0101010100000000000000000100",
        9,
        0,
        "a rule that names somebody off the roster",
    ),
    (
        "0101010200030200",
        "017f010101070000000000000000100003070002010101",
        10,
        1,
        "said to be unknown, and answered",
    ),
    ("0101010200030200", "017f0101010300000000000000000000", 11, 0, "more worlds than allowed"),
];

/// Two digits a byte; strokes part records.
fn bytes(hex: &str) -> Vec<u8> {
    let hex = hex.replace('_', "");
    let digit = |at: usize| u8::from_str_radix(&hex[at..at + 2], 16).expect("a byte");
    (0..hex.len()).step_by(2).map(digit).collect()
}

#[test]
fn refusals_name_their_records() {
    for (plan, case, number, record, what) in REFUSED {
        let refusal = lukhveri::answer(&bytes(plan), &bytes(case)).expect_err(what);
        assert_eq!((refusal.number(), refusal.record()), (*number, *record), "{what}");
    }
    let shown = REFUSED.iter().map(|row| row.2).collect::<std::collections::BTreeSet<u8>>();
    assert_eq!(shown, (1..=11).collect());
}

#[test]
fn the_seventeenth_unresolved_decision() {
    let edges = "040f00010001".repeat(9);
    let cut = |count: u8| {
        let entries: String = (0..count).map(|edge| format!("{edge:02x}03")).collect();
        format!("051703000000000000000001{count:02x}{entries}")
    };
    let plan = |last: u8| format!("010101030101{edges}{}{}", cut(9), cut(last));
    assert_eq!(lukhveri::check(&bytes(&plan(7))), Ok(()));
    let refusal = lukhveri::check(&bytes(&plan(8))).expect_err("seventeen");
    assert_eq!((refusal.number(), refusal.record()), (2, 12));
}

#[test]
fn short_buffers() {
    let (plan, case) = (bytes(FIRST_PLAN), bytes(FIRST_CASE));
    let ask = |lines: usize, events: usize| {
        let (mut lines, mut events) = (vec![7; lines], vec![7; events]);
        let refused = lukhveri::answer_into(&plan, &case, &mut lines, &mut events).err();
        let number = refused.map_or(0, |refusal| refusal.number());
        assert!(number == 0 || [lines, events].concat().iter().all(|byte| *byte == 0));
        number
    };
    assert_eq!(ask(3 * LINE, 12), 0);
    assert_eq!(ask(3 * LINE - 1, 12), 12);
    assert_eq!(ask(3 * LINE, 11), 13);
    assert_eq!(ask(3 * LINE - 1, 11), 12);
}

#[test]
fn no_such_world() {
    let (plan, case) = (bytes(FIRST_PLAN), bytes(FIRST_CASE));
    assert!(lukhveri::show(&plan, &case, 0).is_ok());
    let number = |case: &[u8], world| lukhveri::show(&plan, case, world).expect_err("14").number();
    assert_eq!(number(&case, 1), 14);
    assert_eq!(number(&bytes("015f01010107000000000000001000"), 0), 14);
}

#[test]
fn a_list_of_another_length_than_the_roster() {
    let (plan, case) = (bytes(FIRST_PLAN), bytes(FIRST_CASE));
    let ask = |amounts: &[u32], events: usize| {
        let (mut lines, mut events) = (vec![7; 3 * LINE], vec![7; events]);
        let refused = lukhveri::pool_into(&plan, &case, amounts, &mut lines, &mut events).err();
        let number = refused.map_or(0, |refusal| refusal.number());
        assert!(number == 0 || [lines, events].concat().iter().all(|byte| *byte == 0));
        number
    };
    assert_eq!(ask(&[1, 2, 3], 12), 0);
    assert_eq!(ask(&[1, 2], 12), 15);
    assert_eq!(ask(&[1, 2, 3, 4], 12), 15);
    assert_eq!(ask(&[1, 2], 11), 13);
}

#[test]
fn rows_of_a_table() {
    let header = "kind,left,right,citation\r\n";
    let ask = |rows: &str, room: usize| {
        let mut plan = vec![7; room];
        let table = format!("{header}{rows}");
        let made = lukhveri::import_into(table.as_bytes(), &mut plan).map(<[u8]>::to_vec);
        let zero = plan.iter().all(|byte| *byte == 0);
        made.map_err(|refusal| (refusal.number(), refusal.record(), zero))
    };
    let plan = bytes("010101_030101_040f00010005_042f01020006_0807030007");
    let rows = "status,3,,7\r\nbase,0,1,5\r\ncombination,1,2,6\r\n";
    assert_eq!(ask(rows, plan.len()), Ok(plan.clone()));
    assert_eq!(ask(rows, plan.len() - 1), Err((17, 0, true)));
    assert_eq!(ask("base,0,1,5\r\nbase,0,1,64\r\nx", 0), Err((16, 2, true)));
}

/// Fact 0 makes the chain 0, 1, 2. Fact 1 names 2 and 5, so a mark on 2 spreads to 5; the line of 5 lists fact 1 alone, but fact 0 changes it.
#[test]
fn a_question_that_is_not_listed_can_matter() {
    let plan =
        bytes("0101010200020301020205_030101030200030201_040f00010101040f01020101_0807050203");
    let open = "017f0101012700000000000000014000".to_string();
    let line = |case: String| -> Line {
        let answer = lukhveri::answer(&plan, &bytes(&case)).expect("an answer");
        *answer.line(5).expect("person 5 is on the roster")
    };
    let before = line(open.clone());
    assert_eq!(before.kind, LineKind::Discretion);
    assert_eq!(before.open_facts().collect::<Vec<_>>(), [1]);
    let after = line(open + "030500010003");
    assert_eq!(after.kind, LineKind::Role);
    assert_eq!(after.block, Persons::of(&[5]).expect("a set"));
}
