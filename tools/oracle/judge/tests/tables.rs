//! Tables that are worked out by hand: the plan's bytes, or the row that is turned away.

use std::collections::BTreeSet;

use inputs::broken_tables::broken;
use inputs::random::Random;
use inputs::tables::good;
use inputs::vectors::{from_hex, to_hex};
use model::Made;

const HEADER: &str = "kind,left,right,citation\r\n";
const EMPTY_PLAN: &str = "010101030101";
/// Bytes of the largest plan.
const MOST: usize = 550;

/// Into a buffer of so many bytes, dirty before; nothing but the plan stands in it.
fn import_in(table: &[u8], room: usize) -> (Made, String) {
    let mut plan = vec![0xa5; room];
    let made = model::import(table, &mut plan);
    assert!(plan[made.length as usize..].iter().all(|&byte| byte == 0));
    plan.truncate(made.length as usize);
    (made, to_hex(&plan))
}

fn refusal(refusal: u8, row: u64) -> (Made, String) {
    (Made { refusal, row, length: 0 }, "-".to_string())
}

/// The plan, its records parted by blanks here; the model's own check accepts it.
fn gives(table: impl AsRef<[u8]>, plan: &str) {
    let plan = plan.replace(' ', "");
    let bytes = from_hex(&plan).expect("bytes");
    let made = Made { length: bytes.len() as u64, ..Made::default() };
    assert_eq!(import_in(table.as_ref(), 600), (made, plan));
    assert_eq!(model::check(&bytes).refusal, 0);
}

fn breaks(table: impl AsRef<[u8]>, row: u64) {
    assert_eq!(import_in(table.as_ref(), 600), refusal(16, row));
}

/// Rows under the header, each ended by CRLF.
fn table(rows: &[&str]) -> String {
    rows.iter().fold(HEADER.to_string(), |table, row| table + row + "\r\n")
}

/// One row under the header.
fn row_gives(row: &str, record: &str) {
    gives(table(&[row]), &format!("{EMPTY_PLAN}{record}"));
}

fn row_breaks(row: &str) {
    breaks(table(&[row]), 1);
}

#[test]
fn ends_of_rows() {
    gives("kind,left,right,citation", EMPTY_PLAN);
    gives(HEADER, EMPTY_PLAN);
    breaks(HEADER.to_string() + "\r\n", 1);
    breaks("", 0);
    breaks("\r\n", 0);
    breaks("kind,left,right,citation\r", 0);
    breaks("kind,left,right,citation\n", 0);
    gives(HEADER.to_string() + "base,0,1,0", "010101030101 040f00010000");
    breaks(HEADER.to_string() + "base,0,1,0\r", 1);
    breaks(table(&["base,0,1,0"]) + "\r", 2);
    breaks(table(&["base,0,1,0"]) + "\r\n", 2);
    breaks(HEADER.to_string() + "base,0,1,0\nbase,0,1,0\r\n", 1);
    breaks(HEADER.to_string() + "base,0,1,0\rbase,0,1,0\r\n", 1);
    breaks(HEADER.to_string() + "base,0,1,0\r\r\n", 1);
    breaks(HEADER.to_string() + "base,0,1,0\n\r", 1);
    breaks(HEADER.to_string() + "\nbase,0,1,0\r\n", 1);
    breaks(HEADER.to_string() + "base,0,1,\r\n", 1);
    breaks(HEADER.to_string() + "base,0,1,", 1);
}

#[test]
fn quoting() {
    let quoted = "\"kind\",\"left\",\"right\",\"citation\"\r\n\"status\",\"3\",\"\",\"0\"";
    gives(quoted, "0101010301010807030000");
    gives(quoted.to_string() + "\r\n", "0101010301010807030000");
    gives("kind,\"left\",right,\"citation\"", EMPTY_PLAN);
    row_gives("base,\"0\",1,\"2\"", "040f00010002");
    row_gives("\"status\",9,\"\",1", "0807090001");
    for row in [
        "base,0\",1,0",
        "base,\"0\"0,1,0",
        "base,\"0\" ,1,0",
        "base, \"0\",1,0",
        "base,\"0,1,0",
        "base,\"\"\"0\",1,0",
        "base,\"0\"\"\",1,0",
        "base,\"\"0\"\",1,0",
        "\"base\"\"\",0,1,0",
        "base,0,\"1\r\n\",0",
        "base,0,\"1\r\",0",
        "base,0,\"1\n\",0",
        "base,0,1,0\"",
        "base,0,1,\"0",
        "base,0,1,\"",
        "\"base,0,1,0\"",
        "base,\"0,1\",0",
    ] {
        row_breaks(row);
    }
    breaks("kind,left,right,\"citation", 0);
    breaks("\"kind,left,right,citation\r\n", 0);
    breaks("kind,left,right,citation\"\r\n", 0);
}

/// Blanks, controls, bytes above 126, a byte order mark, another separator.
#[test]
fn bytes_outside() {
    for row in ["base, 0,1,0", "base,0 ,1,0", " base,0,1,0", "base,0,1,0 ", "status,0, ,0"] {
        row_breaks(row);
    }
    for byte in (0..=255).filter(|&byte| byte != b'"') {
        let broken = [HEADER.as_bytes(), b"base,0,1,0", &[byte]].concat();
        if !byte.is_ascii_digit() {
            breaks(broken, 1);
        }
        let quoted = [HEADER.as_bytes(), b"base,\"0", &[byte], b"\",1,0"].concat();
        breaks(quoted, 1);
    }
    breaks(format!("\u{feff}{HEADER}base,0,1,0"), 0);
    breaks("kind;left;right;citation\r\nbase;0;1;0\r\n", 0);
    breaks(HEADER.to_string() + "base;0;1;0", 1);
}

#[test]
fn the_header() {
    for header in [
        "kind,left,right",
        "kind,left,right,citation,",
        "kind,left,right,citation,more",
        "Kind,left,right,citation",
        "kind,right,left,citation",
        "kind, left,right,citation",
        "kind,left,right,citations",
        "kind,left,right,cit",
        "base,0,1,0",
        ",,,",
        ",left,right,citation",
    ] {
        breaks(header, 0);
        breaks(format!("{header}\r\nbase,0,1,0\r\n"), 0);
    }
}

/// Row by row, whatever the fault; rows are counted by rows.
#[test]
fn the_first_row_that_breaks() {
    breaks(table(&["base,64,1,0", "base,\"0,1,0"]), 1);
    breaks(table(&["base,0,1,0", "\"base,0,1,0", "base,x,1,0"]), 2);
    breaks(table(&["base,0,1,0", "base,0,1,0", "base,0,1"]), 3);
    breaks(table(&["base,0,\"1\r\n\",0", "base,x,1,0"]), 1);
    breaks(table(&["status,1,,1", "", "base,x,1,0"]), 2);
    let mut rows = vec!["base,0,1,0"; 70];
    rows[2] = "status,1,2,0";
    breaks(table(&rows), 3);
}

#[test]
fn what_is_not_refused() {
    gives(
        table(&["status,9,,1", "base,5,5,63", "base,5,5,63"]),
        "010101030101 040f0505003f 040f0505003f 0807090001",
    );
    gives(
        table(&["status,9,,1", "combination,1,2,3", "status,9,,1", "base,2,1,4"]),
        "010101030101 042f01020003 040f02010004 0807090001 0807090001",
    );
    gives(HEADER, EMPTY_PLAN);
}

/// 65 edges and 33 statuses, wherever they stand; 16 before 17.
#[test]
fn limits() {
    breaks(table(&["base,0,1,0"; 65]), 65);
    breaks(table(&["combination,0,1,0"; 66]), 65);
    breaks(table(&["status,0,,0"; 33]), 33);
    let whole = [vec!["status,1,,2"; 32], vec!["base,0,1,0"; 64]].concat();
    gives(
        table(&whole),
        &format!("{EMPTY_PLAN}{}{}", "040f00010000".repeat(64), "0807010002".repeat(32)),
    );
    for past in ["base,0,1,0", "status,0,,0", "base,x", ""] {
        breaks(table(&[whole.clone(), vec![past]].concat()), 97);
    }
    let broken = table(&[whole.clone(), vec!["status,0,,0"]].concat());
    for room in [0, MOST, MOST + 1] {
        assert_eq!(import_in(broken.as_bytes(), room), refusal(16, 97));
    }
}

#[test]
fn rooms() {
    let whole = table(&[vec!["status,1,,2"; 32], vec!["base,0,1,0"; 64]].concat());
    for (table, length) in [(HEADER, 6), (&table(&["base,0,1,0"]), 12), (&whole, MOST)] {
        for room in [0, 1, length - 1] {
            assert_eq!(import_in(table.as_bytes(), room), refusal(17, 0));
        }
        for room in [length, length + 1, 1000] {
            assert_eq!(import_in(table.as_bytes(), room).0.length, length as u64);
        }
    }
}

#[test]
fn numbers() {
    row_gives("base,0,9,10", "040f0009000a");
    row_gives("combination,63,62,63", "042f3f3e003f");
    row_gives("status,63,,63", "08073f003f");
    let wrap = [8, 16, 32, 64].map(|bits| (1u128 << bits).to_string());
    let tens = "1".to_string() + &"0".repeat(400);
    let zeros = "0".repeat(300);
    let wrong = ["64", "65", "99", "100", "255", "256", "1000", "00", "01", "063", "007", "-1"];
    let forms = ["+1", "", " 1", "1 ", "1.", "1.0", "0x1", "1e0", "１", "a", "1a", "a1"];
    let long = [&wrap[0], &wrap[1], &wrap[2], &wrap[3], &tens, &zeros].map(String::as_str);
    for number in [&wrong[..], &forms, &long].concat() {
        row_breaks(&format!("base,{number},1,0"));
        row_breaks(&format!("combination,0,{number},0"));
        row_breaks(&format!("base,0,1,{number}"));
        row_breaks(&format!("status,{number},,0"));
        row_breaks(&format!("status,0,,{number}"));
    }
}

#[test]
fn words() {
    for word in [
        "Base",
        " base",
        "bas",
        "bases",
        "BASE",
        "comb",
        "combinatio",
        "combinations",
        "Status",
        "statu",
        "statuses",
        "kind",
        "",
        "0",
        "basestatus",
        "bbase",
    ] {
        row_breaks(&format!("{word},0,1,0"));
        row_breaks(&format!("{word},0,,0"));
    }
}

/// A status's person is in left; the others need both.
#[test]
fn empty_fields() {
    for row in [
        "status,,3,0",
        "status,3,3,0",
        "status,3,0,0",
        "status,,,0",
        "base,0,,0",
        "base,,0,0",
        "combination,0,,0",
        "combination,,1,0",
        "base,0,1,",
        "status,0,,",
        ",,,",
    ] {
        row_breaks(row);
    }
}

#[test]
fn counts_of_fields() {
    for row in ["base", "base,0", "base,0,1", "base,0,1,0,", "base,0,1,0,0", "status,0,0"] {
        row_breaks(row);
    }
    row_breaks("status,3,,,0");
    row_breaks(",base,0,1,0");
}

/// As many records as the table has rows, beside heading and node.
#[test]
fn good_tables_are_accepted() {
    for number in 0..2000 {
        let table = good(&mut Random::stream(1, number));
        let (made, plan) = import_in(&table.bytes(), MOST);
        assert_eq!(made.refusal, 0);
        let plan = inputs::wire::Plan::decode(&from_hex(&plan).expect("bytes")).expect("a plan");
        assert_eq!(plan.edges.len() + plan.statuses.len() + 1, table.rows.len());
    }
}

/// No row past the last that a limit allows, and nearly each of those before.
#[test]
fn broken_tables_break_everywhere() {
    let tables = (0..20_000).map(|number| broken(&mut Random::stream(1, number)));
    let made = tables.map(|table| import_in(&table, MOST).0);
    let rows: BTreeSet<u64> = made.filter(|made| made.refusal == 16).map(|made| made.row).collect();
    assert!(rows.len() > 90 && rows.last() == Some(&97));
}
