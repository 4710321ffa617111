//! Plans out of tables: what is accepted, what is refused with which row, and buffers of any length.

use lukhveri::{Edge, IMPORTED_LENGTH, Plan, Reason, Status, check, import_into};

const HEADER: &str = "kind,left,right,citation\r\n";

/// Bytes from their hexadecimal digits.
fn bytes(hex: &str) -> Vec<u8> {
    let digits: Vec<u32> = hex.chars().filter_map(|digit| digit.to_digit(16)).collect();
    digits.chunks(2).map(|pair| (pair[0] * 16 + pair[1]) as u8).collect()
}

/// The header and these rows.
fn table(rows: &[&str]) -> String {
    HEADER.to_string() + &rows.iter().map(|row| format!("{row}\r\n")).collect::<String>()
}

/// The plan of a table, or the row that is refused.
fn plan(table: &str) -> Result<Vec<u8>, u64> {
    match Plan::from_table(table.as_bytes()) {
        Ok(plan) => {
            assert_eq!(check(plan.bytes()), Ok(()));
            Ok(plan.bytes().to_vec())
        }
        Err(refusal) => {
            assert_eq!(refusal.reason, Reason::BrokenRow { row: refusal.record() });
            assert_eq!((refusal.number(), refusal.place), (16, None));
            Err(refusal.record())
        }
    }
}

#[test]
fn rows_become_rules() {
    let said = table(&["status,9,,1", "base,5,6,63", "combination,0,63,0", "base,5,6,63"]);
    let wanted = "010101 030101 040f0506003f 042f003f0000 040f0506003f 0807090001";
    assert_eq!(plan(&said), Ok(bytes(wanted)));
    let plan = Plan::from_table(said.as_bytes()).expect("a plan");
    let records = plan.records();
    let persons = |edge: &Edge| (edge.left, edge.right, edge.combination, edge.citation.0);
    let edges: Vec<_> = records.edges.iter().map(persons).collect();
    assert_eq!(edges, [(5, 6, false, 63), (0, 63, true, 0), (5, 6, false, 63)]);
    let statuses: Vec<&Status> = records.statuses.iter().collect();
    assert_eq!((statuses.len(), statuses[0].person, statuses[0].citation.0), (1, 9, 1));
    assert_eq!((records.nodes.len(), records.facts.len(), plan.decisions().len()), (1, 0, 0));
}

#[test]
fn ends_and_quoting() {
    let empty = Ok(bytes("010101030101"));
    assert_eq!(plan("kind,left,right,citation"), empty);
    assert_eq!(plan(HEADER), empty);
    assert_eq!(plan(&(HEADER.to_string() + "\r\n")), Err(1));
    assert_eq!(plan(""), Err(0));
    assert_eq!(plan("kind,left,right,citation\r"), Err(0));
    assert_eq!(plan("kind,left,right,citation\n"), Err(0));
    let quoted = "\"kind\",\"left\",\"right\",\"citation\"\r\n\"status\",\"3\",\"\",\"0\"";
    assert_eq!(plan(quoted), Ok(bytes("010101 030101 0807030000")));
    assert_eq!(plan(&table(&["base,0,\"1\r\n\",0"])), Err(1));
    assert_eq!(plan(&table(&["base,0,1,0", "\"base,0,1,0", "base,x,1,0"])), Err(2));
    assert_eq!(plan(&table(&["base,0,x,0", "\"base,0,1,0"])), Err(1));
}

#[test]
fn limits() {
    let rows = |row: &str, count: usize| table(&vec![row; count]);
    assert_eq!(plan(&rows("base,0,1,2", 64)).map(|plan| plan.len()), Ok(390));
    assert_eq!(plan(&rows("base,0,1,2", 65)), Err(65));
    assert_eq!(plan(&rows("status,0,,2", 32)).map(|plan| plan.len()), Ok(166));
    assert_eq!(plan(&rows("status,0,,2", 33)), Err(33));
    let both = [vec!["combination,62,63,1"; 64], vec!["status,1,,2"; 32]].concat();
    assert_eq!(plan(&table(&both)).map(|plan| plan.len()), Ok(IMPORTED_LENGTH));
    let more = [both.clone(), vec!["base,0,1,2"]].concat();
    assert_eq!(plan(&table(&more)), Err(97));
}

#[test]
fn numbers_and_words() {
    for row in ["base,63,0,63", "combination,0,0,0", "status,10,,10"] {
        assert!(plan(&table(&[row])).is_ok(), "{row}");
    }
    for row in [
        "base,64,0,0",
        "base,0,64,0",
        "base,0,0,64",
        "base,00,0,0",
        "base,01,0,0",
        "base,256,0,0",
        "base,18446744073709551616,0,0",
        "base,,1,0",
        "base,1,,0",
        "base,1,2,",
        "base,+1,2,0",
        "base, 1,2,0",
        "base,1,2,0 ",
        "base,1,2",
        "base,1,2,0,",
        "status,1,2,0",
        "status,,1,0",
        "status,1,0",
        "Base,1,2,0",
        " base,1,2,0",
        "comb,1,2,0",
        "based,1,2,0",
        ",,,",
    ] {
        assert_eq!(plan(&table(&["base,1,2,3", row])), Err(2), "{row}");
    }
}

/// 16 is asked before 17; the buffer is all zero after both, and past the plan.
#[test]
fn buffers_of_any_length() {
    let good = table(&["base,0,1,2", "status,3,,4"]);
    let bad = table(&["base,0,1,2", "status,3,4,4"]);
    let wanted = bytes("010101 030101 040f00010002 0807030004");
    for room in [0, 1, wanted.len() - 1, wanted.len(), wanted.len() + 1, 600] {
        let mut buffer = vec![170; room];
        let made = import_into(good.as_bytes(), &mut buffer).map(<[u8]>::to_vec);
        let zeros = buffer.iter().skip(wanted.len()).all(|byte| *byte == 0);
        match room < wanted.len() {
            true => {
                let refusal = made.expect_err("it does not fit");
                assert_eq!((refusal.reason, refusal.record()), (Reason::PlanDoesNotFit, 0));
                assert_eq!(refusal.number(), 17);
                assert!(buffer.iter().all(|byte| *byte == 0));
            }
            false => assert!(made.as_ref() == Ok(&wanted) && zeros, "{room}"),
        }
        let mut buffer = vec![170; room];
        let refusal = import_into(bad.as_bytes(), &mut buffer).expect_err("a status with a right");
        assert_eq!(refusal.reason, Reason::BrokenRow { row: 2 });
        assert!(buffer.iter().all(|byte| *byte == 0));
    }
}

#[test]
fn refusals_in_words() {
    let refusal = Plan::from_table(b"").expect_err("nothing");
    assert_eq!(refusal.to_string(), "refused 16: row 0 of the table breaks its form");
    assert!(refusal.remedy().starts_with("write kind,left,right,citation in the first row, "));
    let refusal = Plan::from_table(table(&["x"]).as_bytes()).expect_err("no rule");
    assert!(refusal.remedy().starts_with("write four fields, kind,left,right,citation: "));
    let refusal = import_into(HEADER.as_bytes(), &mut [1; 5]).expect_err("six bytes");
    assert_eq!(refusal.to_string(), "refused 17: the plan does not fit the buffer");
    assert_eq!(refusal.remedy(), "lend more for the plan; 550 bytes always suffice");
    assert_eq!(refusal.row_fault(HEADER.as_bytes()), None);
}
