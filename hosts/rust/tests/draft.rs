//! What is said of a row that is refused: row and line, the field, what is wrong and what would mend it.

use lukhveri::draft::{Chain, Column, Note, RowFault, notes, with_returns};
use lukhveri::{Persons, Plan};

const HEADER: &str = "kind,left,right,citation\r\n";

fn fault(table: &[u8]) -> RowFault {
    let refusal = Plan::from_table(table).expect_err("refused");
    let fault = refusal.row_fault(table).expect("a row");
    assert_eq!(fault.row, refusal.record(), "{table:?}");
    fault
}

/// Place, finding and remedy of a table.
fn said(table: &str) -> [String; 3] {
    let fault = fault(table.as_bytes());
    let finding = fault.finding().expect("a finding").to_string();
    assert_eq!(fault.to_string(), format!("{}: {finding}", fault.place()));
    [fault.place(), finding, fault.remedy().to_string()]
}

/// What is said of a second row behind a good one.
fn of_row(row: &str) -> [String; 3] {
    said(&format!("{HEADER}base,0,1,5\r\n{row}\r\n"))
}

const ROW: &str = "row 2 of the table (line 3 of the file)";

/// A row at fault as a whole.
fn whole(row: &str, finding: &str, remedy: &str) {
    assert_eq!(of_row(row), [ROW, finding, remedy], "{row:?}");
}

/// A field of a row at fault.
fn field(row: &str, column: Column, finding: &str, remedy: &str) {
    assert_eq!(of_row(row), [&format!("{ROW}, field {column}"), finding, remedy], "{row:?}");
}

/// A file whose first row is at fault.
fn header(table: &str, finding: &str, remedy: &str) {
    let place = "row 0 of the table, the header (line 1 of the file)";
    assert_eq!(said(table), [place, finding, remedy], "{table:?}");
}

#[test]
fn quoting() {
    field(
        "base,\"0,1,5",
        Column::Left,
        "its quotation mark is never closed",
        "close it behind the field, or take it away",
    );
    field(
        "base,0,\"1\" ,5",
        Column::Right,
        "something stands behind its closing quotation mark",
        "put the whole field into the quotation marks, or take them away",
    );
    field(
        "base,0,1,5\"",
        Column::Citation,
        "a quotation mark stands within it",
        "take it away: no word and no number has one",
    );
    for row in ["base, \"0\",1,5", "base,\t \"0\",1,5"] {
        field(
            row,
            Column::Left,
            "a blank stands before its quotation mark",
            "take away what stands before the quotation mark",
        );
    }
    whole(
        "base,0,1,5,\"",
        "its quotation mark is never closed",
        "close it behind the field, or take it away",
    );
    whole(
        "base,0,1,5\rx",
        "a CR stands without an LF behind it",
        "end each row in CR LF, and have no line break within a field",
    );
    whole(
        "base,0,1,5\nbase,0,1,5",
        "an LF stands without a CR before it",
        "end each row in CR LF, and have no line break within a field",
    );
}

/// The line is that of the fault; where the row begins elsewhere, that is said, too.
#[test]
fn lines_of_rows_with_line_breaks() {
    let place = |table: &str| said(table).into_iter().next().expect("a place");
    assert_eq!(
        place(&format!("{HEADER}\"ba\r\n\r\nse\",\"0\"x,1,5\r\n")),
        "row 1 of the table (line 4 of the file; the row begins in line 2), field left"
    );
    assert_eq!(
        place(&format!("{HEADER}\"a\nb\",\"c\rd\",\"e,1,5\r\n")),
        "row 1 of the table (line 4 of the file; the row begins in line 2), field right"
    );
    assert_eq!(
        place(&format!("{HEADER}base,0,1,5\r\n\"base\",\"0\r\n\",1,5\r\n")),
        "row 2 of the table (line 3 of the file), field left"
    );
    assert_eq!(place("\"kind\r\n\",left"), "row 0 of the table, the header (line 1 of the file)");
}

#[test]
fn files_saved_in_another_way() {
    let lines = "save the table with line ends of CR LF, as on Windows";
    let unix = "the lines end in LF alone, as on Unix";
    header("kind,left,right,citation\nbase,0,1,5\n", unix, lines);
    header("kind,left,right,citation\n", unix, lines);
    let mac = "the lines end in CR alone, as on old Macs";
    header("kind,left,right,citation\rbase,0,1,5\r", mac, lines);
    let comma = "choose the comma as field separator where the table is exported";
    header(
        "kind;left;right;citation\r\nbase;0;1;5\r\n",
        "the fields are parted by semicolons",
        comma,
    );
    header("\"kind\"\t\"left\"\r\n", "the fields are parted by tabs", comma);
    let mark = "the file begins with a byte order mark";
    let without = "save the table as UTF-8 without one (\"UTF-8\", not \"UTF-8 with BOM\")";
    header(&format!("\u{feff}{HEADER}base,0,1,5\r\n"), mark, without);
    header("\u{feff}\"kind\",left,right,citation\r\n", mark, without);
    header(
        "\u{feff}kind;left;right;citation\nbase;0;1;5\n",
        &format!("{mark}, the fields are parted by semicolons and {unix}"),
        &format!("{without}; {comma}; {lines}"),
    );
    let export = "export the sheet as CSV, and give that file";
    header(
        "PK\u{3}\u{4}x",
        "the file begins as zip archives do, .ods and .xlsx files among them",
        export,
    );
    let angle = "the file begins with <, as .fods, XML and HTML files do";
    header("<?xml?>\n", angle, export);
    header("<kind,left,right,citation\r\n", angle, export);
    let old = fault(b"\xd0\xcf\x11\xe0\xa1");
    let office = "the file begins as old Office documents do, .xls files among them";
    assert_eq!(old.finding(), Some(office));
    let wide: Vec<u16> = HEADER.encode_utf16().collect();
    let little: Vec<u8> = wide.iter().flat_map(|unit| unit.to_le_bytes()).collect();
    let big: Vec<u8> = wide.iter().flat_map(|unit| unit.to_be_bytes()).collect();
    for table in
        [[&[0xff, 0xfe], &little[..]].concat(), [&[0xfe, 0xff], &big[..]].concat(), little, big]
    {
        let fault = fault(&table);
        assert_eq!(fault.finding(), Some("the file begins as UTF-16 text does"));
        assert_eq!((fault.row, fault.remedy()), (0, "save the table as UTF-8"));
    }
    let cells = "write four, each in a cell of its own: kind,left,right,citation";
    header("k\0ind\r\n", "the header has one field: 'k?ind'", cells);
    header("\0kind,left\r\n", "the header has two fields: '?kind,left'", cells);
}

/// Line ends are at fault only where they break the row.
#[test]
fn line_ends_within_quotation_marks() {
    header(
        "\"kind\n\",left,right,citation",
        "the header is 'kind?,left,right,citation', with a line break in a field",
        "write kind,left,right,citation, without a line break",
    );
    header(
        "\"kind\n\",left,right",
        "the header has three fields: 'kind?,left,right'",
        "write four, each in a cell of its own: kind,left,right,citation",
    );
}

/// Of a table that is as long as what is read of a file, nothing is said that its end might belie.
#[test]
fn tables_that_may_go_on() {
    const LONG: usize = lukhveri::files::RULES_LENGTH;
    let filled = |start: &str, filler: &str| {
        let mut table = start.to_string();
        while table.len() < LONG {
            table += filler;
        }
        table
    };
    let endless = "it is longer than 500,000 bytes";
    let close = "write rows of four fields, kind,left,right,citation, and close each quotation mark within its field";
    let row = "row 1 of the table (line 2 of the file)";
    for start in ["\"", "base,", "base,0,1,\"5\"\"", "base,0,1,"] {
        assert_eq!(said(&filled(&format!("{HEADER}{start}"), "5")), [row, endless, close]);
    }
    header(&filled("kind", ";left"), endless, close);
    let cut = filled(HEADER, "5").into_bytes();
    let cut = [&cut[..LONG - 1], b"\r"].concat();
    assert_eq!(fault(&cut).to_string(), format!("{row}: {endless}"));
    let feed = "an LF stands without a CR before it";
    let mend = "end each row in CR LF, and have no line break within a field";
    header(&filled("kind,left,right,citation\n", "base,0,1,5\n"), feed, mend);
    assert_eq!(said(&filled(HEADER, "\r\n")), [row, "the line is empty", "take it away"]);
    let ended = filled(HEADER, "x").into_bytes();
    let ended = [&ended[..LONG - 2], b"\r\n"].concat();
    let finding = fault(&ended).finding().expect("a finding").to_string();
    assert_eq!(finding, format!("it has one field: '{}...'", "x".repeat(40)));
    let rows = said(&filled(HEADER, "base,0,1,5\r\n"));
    assert_eq!(rows[1], "it is the 65th edge, and a plan has at most 64 edges");
    let zip = filled("PK\u{3}\u{4}", "x");
    assert!(said(&zip)[1].starts_with("the file begins as zip archives do"));
}

#[test]
fn headers() {
    header(
        "",
        "the file is empty",
        "write kind,left,right,citation in the first row, and below it a row for each rule",
    );
    header(
        "\r\nkind,left,right,citation\r\n",
        "the first line is empty",
        "take it away: the first row is kind,left,right,citation",
    );
    let cells = "write four, each in a cell of its own: kind,left,right,citation";
    header("kind,left,right\r\n", "the header has three fields: 'kind,left,right'", cells);
    header(
        "\"kind,left,right,citation\"\r\n",
        "the header has one field: 'kind,left,right,citation'",
        cells,
    );
    header("\"kind;left\"\r\n", "the header has one field: 'kind;left'", cells);
    header(
        "\"kind,left\",right,citation\r\n",
        "the header has three fields: 'kind,left,right,citation'",
        cells,
    );
    let long = format!("the header has one field: '{}...'", "é".repeat(40));
    header(&"é".repeat(100), &long, cells);
    header("kind\u{7},left", "the header has two fields: 'kind?,left'", cells);
}

#[test]
fn headers_of_other_columns() {
    let write = "write kind,left,right,citation there";
    header("kind,right,left,citation\r\n", "the header is 'kind,right,left,citation'", write);
    header(
        "Kind, left,right,citation\r\n",
        "the header is 'Kind, left,right,citation', and capital letters and blanks count",
        "write kind,left,right,citation, in small letters and without blanks",
    );
    header(
        "base,0,1,5\r\nbase,0,2,5\r\n",
        "the header is missing: the first row is 'base,0,1,5'",
        "put the row kind,left,right,citation above it",
    );
    header("base,left,right,citation\r\n", "the header is 'base,left,right,citation'", write);
    let out = "out, with all that stands below";
    header(
        "kind,left,right,citation,note\r\n",
        "a column ('note') stands behind citation",
        &format!("take it {out}"),
    );
    header(
        "kind,left,right,citation,,\r\n",
        "two columns (without a name) stand behind citation",
        &format!("take them {out}"),
    );
}

#[test]
fn counts_of_fields() {
    let cells = "write four, each in a cell of its own: kind,left,right,citation";
    whole("base,0,1", "it has three fields in place of four", cells);
    whole(
        "status,5,3",
        "it has three fields in place of four",
        "write two commas behind the person, as in status,5,,3: a status has an empty right field",
    );
    whole("base", "it has one field: 'base'", cells);
    whole("\"\"", "it has one field: ''", cells);
    whole("\"base,0,1,5\"", "it has one field: 'base,0,1,5'", cells);
    whole("\"base;0;1;5\"", "it has one field: 'base;0;1;5'", cells);
    let comma = "choose the comma as field separator where the table is exported";
    whole("base;0;1;5", "the fields are parted by semicolons", comma);
    whole(
        "base,0,1,5,6",
        "it has five fields in place of four",
        "take out what stands behind citation: '6'",
    );
    whole(
        "base,0,1,5,,",
        "it has six fields in place of four, those behind citation are empty",
        "take out the empty columns behind citation",
    );
    whole(",,,", "its four fields are empty", "delete this row of the sheet");
    whole(
        "",
        "an empty line stands at the end of the file",
        "take it away: the CR LF of the last row may stand there, and nothing behind it",
    );
    whole("\r\nbase,0,1,5", "the line is empty", "take it away");
}

#[test]
fn words() {
    let small = "write base, in small letters";
    field("Base,0,1,5", Column::Kind, "'Base' has a capital letter", small);
    field(" base,0,1,5", Column::Kind, "' base' has blanks around it", "write base without them");
    field(
        "edge,0,1,5",
        Column::Kind,
        "'edge' is none of the words base, combination and status",
        "write one of the three",
    );
    field(",0,1,5", Column::Kind, "it is empty", "write base, combination or status");
    for word in ["base\r\n", "ba\nse", "\n"] {
        field(
            &format!("\"{word}\",0,1,5"),
            Column::Kind,
            "it has a line break",
            "take the line break out of the field",
        );
    }
}

/// What cannot be seen, or turns a line round, is shown as a question mark, and every blank as a blank.
#[test]
fn letters_without_a_look() {
    let none = |shown: &str| format!("'{shown}' is none of the words base, combination and status");
    for (word, shown) in [
        ("ba\u{200b}se", "ba?se"),
        ("\u{202e}esab", "?esab"),
        ("ba\u{7}\u{ad}se", "ba??se"),
        ("ba\u{2028}se", "ba se"),
        ("ბაზა–é§'\\", "ბაზა–é§'\\"),
    ] {
        let row = format!("{word},0,1,5");
        field(&row, Column::Kind, &none(shown), "write one of the three");
    }
}

#[test]
fn numbers() {
    let range = "write a number from 0 to 63";
    let alone = "write a number from 0 to 63, in digits alone";
    field("base,64,1,5", Column::Left, "'64' is outside 0 to 63", range);
    field("base,0,1000000000000,5", Column::Right, "'1000000000000' is outside 0 to 63", range);
    field("base,0,0064,5", Column::Right, "'0064' is outside 0 to 63", range);
    field("base,0,1,05", Column::Citation, "'05' has a leading zero", "write 5");
    field("base,00,1,5", Column::Left, "'00' has a leading zero", "write 0");
    field("base,+1,1,5", Column::Left, "'+1' has a sign", alone);
    field("base,1,-1,5", Column::Right, "'-1' has a sign", alone);
    let blanks = "write a number from 0 to 63, without blanks";
    field("base,1 ,1,5", Column::Left, "'1 ' has blanks around it", blanks);
    field("base,1,2,\u{a0}5", Column::Citation, "' 5' has blanks around it", blanks);
    let shown =
        "write a whole number from 0 to 63, and let the spreadsheet show it without decimals";
    field("base,1.00,1,5", Column::Left, "'1.00' is not in digits alone", shown);
    field("base,1,\"1,00\",5", Column::Right, "'1,00' is not in digits alone", shown);
    field("base,1,2,1E+01", Column::Citation, "'1E+01' is not in digits alone", shown);
    field("base,Anna,1,5", Column::Left, "'Anna' is no number", alone);
    field("base,1,2,§5", Column::Citation, "'§5' is no number", alone);
    field("base,1,2,", Column::Citation, "it is empty", "write the number of the rule's citation");
    field(
        "base,\"1\r\n\",2,5",
        Column::Left,
        "it has a line break",
        "take the line break out of the field",
    );
}

#[test]
fn empty_fields_and_others() {
    field(
        "status,5,6,3",
        Column::Right,
        "'6' stands there, and a status has an empty right field",
        "empty the field; write base or combination if two persons are meant",
    );
    field(
        "status,,6,3",
        Column::Left,
        "it is empty",
        "write the status's person there, and leave right empty",
    );
    field(
        "combination,5,,3",
        Column::Right,
        "it is empty, and an edge has two persons",
        "write the number of the second; write status if one person is meant",
    );
    field("base,,5,3", Column::Left, "it is empty", "write the number of the edge's first person");
}

#[test]
fn limits() {
    let table = |row: &str, count: usize| format!("{HEADER}{}", format!("{row}\r\n").repeat(count));
    let mend = "leave out what is not needed, or split the roster";
    assert_eq!(
        said(&table("base,0,1,5", 65)),
        [
            "row 65 of the table (line 66 of the file)",
            "it is the 65th edge, and a plan has at most 64 edges",
            mend
        ]
    );
    assert_eq!(
        said(&(table("combination,0,1,5", 64) + "status,5,,3\r\nbase,0,1,5\r\n")),
        [
            "row 66 of the table (line 67 of the file)",
            "it is the 65th edge, and a plan has at most 64 edges",
            mend
        ]
    );
    assert_eq!(
        said(&table("status,5,,3", 33)),
        [
            "row 33 of the table (line 34 of the file)",
            "it is the 33rd status, and a plan has at most 32 statuses",
            mend
        ]
    );
}

/// In a good table one field after another is spoiled: it is the one that is named, with its line.
#[test]
fn the_field_that_was_spoiled() {
    const COLUMNS: [Column; 4] = [Column::Kind, Column::Left, Column::Right, Column::Citation];
    let rows = ["base,0,1,5", "status,63,,0", "combination,7,8,63", "status,5,,1", "base,9,9,9"];
    let words = ["", "Base", " status", "x", "\"base", "base\"", "\"base\"x", "edge"];
    let numbers =
        ["", "64", "01", "+1", "1 ", "x", "1.0", "256", "\"1", "1\"", "\"1\"1", "99999999999"];
    for (row, column) in (0..rows.len()).flat_map(|row| (0..4).map(move |column| (row, column))) {
        let spoiled = if column == 0 { &words[..] } else { &numbers[..] };
        let empty = rows[row].split(',').nth(column) == Some("");
        for bad in spoiled.iter().filter(|bad| !(empty && bad.is_empty())) {
            let table = rows.iter().enumerate().map(|(at, text)| {
                let mut fields: Vec<&str> = text.split(',').collect();
                if at == row {
                    fields[column] = bad;
                }
                fields.join(",") + "\r\n"
            });
            let table = format!("{HEADER}{}", table.collect::<String>());
            let fault = fault(table.as_bytes());
            let named = (fault.row, fault.line, fault.field);
            assert_eq!(named, (row as u64 + 1, Some(row + 2), Some(COLUMNS[column])), "{table:?}");
        }
    }
}

/// A table that is good, and a row that is not there: nothing is made up.
#[test]
fn where_nothing_is_found() {
    let refusal = Plan::from_table(b"kind").expect_err("no header");
    let good = format!("{HEADER}base,0,1,5\r\n");
    let fault = refusal.row_fault(good.as_bytes()).expect("a row");
    assert_eq!((fault.row, fault.line, fault.field, fault.finding()), (0, None, None, None));
    assert_eq!(fault.to_string(), "row 0 of the table breaks its form");
    assert_eq!(fault.remedy(), refusal.remedy());
    let refusal = Plan::from_table(format!("{good}x").as_bytes()).expect_err("one field");
    for table in [HEADER, ""] {
        let fault = refusal.row_fault(table.as_bytes()).expect("a row");
        assert_eq!(fault.to_string(), "row 2 of the table breaks its form");
        assert_eq!(fault.remedy(), refusal.remedy());
    }
}

#[test]
fn line_feeds_become_line_ends() {
    assert_eq!(with_returns(b"a\nb\r\n\nc\r\r\n\n"), b"a\r\nb\r\n\r\nc\r\r\n\r\n");
    assert_eq!(with_returns(b""), b"");
    let unix = format!("{HEADER}base,0,1,5\r\n").replace('\r', "");
    assert!(fault(unix.as_bytes()).has_bare_line_feed());
    assert!(Plan::from_table(&with_returns(unix.as_bytes())).is_ok());
    assert!(fault(format!("{HEADER}base,0,1,5\n").as_bytes()).has_bare_line_feed());
    assert!(!fault(format!("{HEADER}base,0,1,\"5\n\"").as_bytes()).has_bare_line_feed());
    assert!(!fault(b"kind\r\n").has_bare_line_feed());
}

/// The notes on a table of these rows, which is accepted.
fn odd(rows: &str) -> Vec<Note> {
    let table = format!("{HEADER}{rows}");
    assert!(Plan::from_table(table.as_bytes()).is_ok());
    notes(table.as_bytes())
}

#[test]
fn what_is_odd_and_accepted() {
    let of = odd;
    assert_eq!(of("base,0,1,5\r\nstatus,0,,5\r\ncombination,1,0,5\r\nbase,0,1,6\r\n"), []);
    assert_eq!(of(""), [Note::NoRules]);
    let rows =
        "base,0,1,5\r\nstatus,3,,5\r\n\"base\",0,1,5\r\nstatus,3,,5\r\nbase,4,4,5\r\nbase,0,1,5";
    let odd = of(rows);
    assert_eq!(
        odd,
        [
            Note::Repeated { row: 3, earlier: 1 },
            Note::Repeated { row: 4, earlier: 2 },
            Note::SelfEdge { row: 5 },
            Note::Repeated { row: 6, earlier: 1 }
        ]
    );
    let words: Vec<String> = odd.iter().map(Note::to_string).collect();
    assert_eq!(words[0], "row 3 says what row 1 says");
    assert_eq!(words[2], "row 5 has one person at both ends, so that it joins nobody");
    assert_eq!((odd[2].row(), Note::NoRules.row()), (Some(5), None));
}

#[test]
fn edges_whose_ends_are_exchanged() {
    let rows = odd("base,0,1,5\r\nbase,1,0,5\r\nbase,1,0,5\r\nbase,1,0,6\r\ncombination,1,0,5\r\n");
    let wanted = [Note::Turned { row: 2, earlier: 1 }, Note::Repeated { row: 3, earlier: 2 }];
    assert_eq!(rows, wanted);
    assert_eq!(rows[0].to_string(), "row 2 says what row 1 says, with left and right exchanged");
    assert_eq!(rows[0].row(), Some(2));
}

/// Base edges alone, three persons or more, and two of them without a row of their own.
#[test]
fn mere_chains() {
    let chain = |persons: &[u8], apart| {
        Note::Chain(Chain { persons: Persons::of(persons).expect("persons"), apart })
    };
    let two = odd("base,0,2,1\r\nstatus,0,,1\r\nbase,1,2,1\r\n");
    assert_eq!(two, [chain(&[0, 1, 2], (0, 1))]);
    assert_eq!(
        two[0].to_string(),
        "base joins persons 0, 1 and 2, but no base row has 0 and 1: a mere chain, which is left to discretion"
    );
    assert_eq!(two[0].row(), None);
    assert_eq!(odd("base,0,2,1\r\nbase,1,2,1\r\nbase,1,0,1\r\n"), []);
    assert_eq!(odd("base,0,2,1\r\ncombination,1,2,1\r\nbase,3,4,1\r\n"), []);
    assert_eq!(odd("combination,0,2,1\r\ncombination,1,2,1\r\n"), []);
    assert_eq!(
        odd("base,0,2,1\r\nbase,1,2,1\r\ncombination,0,1,1\r\n"),
        [chain(&[0, 1, 2], (0, 1))]
    );
    assert_eq!(
        odd("base,63,7,1\r\nbase,5,4,1\r\nbase,62,63,1\r\nbase,3,4,1\r\nbase,4,4,1\r\n"),
        [Note::SelfEdge { row: 5 }, chain(&[3, 4, 5], (3, 5)), chain(&[7, 62, 63], (7, 62))]
    );
}
