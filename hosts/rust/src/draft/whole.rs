//! Signs that a whole file was saved in another way than a table should be.

use super::rows::{Break, Row};
use super::{Advice, HEADER, may_go_on};

/// Whether there are lines, and all of them end in this alone.
fn ends_alone(table: &[u8], end: u8) -> bool {
    let other = if end == b'\n' { b'\r' } else { b'\n' };
    table.contains(&end) && !table.contains(&other)
}

/// By its byte order mark, or by the zeros at every second place.
fn is_utf_16(table: &[u8]) -> bool {
    match table {
        [0xff, 0xfe, ..] | [0xfe, 0xff, ..] => true,
        [a, b, c, d, e, f, g, h, ..] => {
            let (even, odd) =
                ([a, c, e, g].map(|byte| *byte == 0), [b, d, f, h].map(|byte| *byte == 0));
            [(even, odd), (odd, even)].contains(&([true; 4], [false; 4]))
        }
        _ => false,
    }
}

/// A file that was given in place of an exported table, by its first bytes.
pub(crate) fn other_form(table: &[u8]) -> Option<Advice> {
    let kinds: [(&[u8], _); 3] = [
        (b"PK\x03\x04", "as zip archives do, .ods and .xlsx files among them"),
        (b"\xd0\xcf\x11\xe0", "as old Office documents do, .xls files among them"),
        (b"<", "with <, as .fods, XML and HTML files do"),
    ];
    let other = kinds.iter().find(|(start, _)| table.starts_with(start)).map(|(_, kind)| {
        let mend = "export the sheet as CSV, and give that file";
        Advice::new(format!("the file begins {kind}"), mend)
    });
    let wide = || Advice::new("the file begins as UTF-16 text does", "save the table as UTF-8");
    other.or_else(|| is_utf_16(table).then(wide))
}

/// What stands outside quotation marks.
fn unquoted(line: &[u8]) -> Vec<u8> {
    let mut inside = false;
    let outside = line.iter().filter(|byte| {
        inside ^= **byte == b'"';
        !inside
    });
    outside.copied().collect()
}

/// What parts the fields of a line that has no comma.
pub(crate) fn other_marks(line: &[u8]) -> Option<&'static str> {
    let marks = [(b';', "semicolons"), (b'\t', "tabs")];
    let outside = unquoted(line);
    let found = marks.iter().find(|(mark, _)| outside.contains(mark));
    found.map(|(_, marks)| *marks).filter(|_| !line.contains(&b','))
}

/// The advice that goes with them.
pub(crate) const COMMAS: &str = "choose the comma as field separator where the table is exported";

/// Where the first row is refused, each of these is a reason for it.
pub(crate) fn signs(table: &[u8], row: &Row) -> Vec<Advice> {
    let line = table.split(|byte| b"\r\n".contains(byte)).next().unwrap_or_default();
    let mark = table.starts_with(b"\xef\xbb\xbf").then(|| {
        Advice::new(
            "the file begins with a byte order mark",
            "save the table as UTF-8 without one (\"UTF-8\", not \"UTF-8 with BOM\")",
        )
    });
    let commas = other_marks(line)
        .map(|marks| Advice::new(format!("the fields are parted by {marks}"), COMMAS));
    [mark, commas, line_ends(table, row)].into_iter().flatten().collect()
}

/// Where the first row breaks at such an end.
fn line_ends(table: &[u8], row: &Row) -> Option<Advice> {
    let (end, what) = match row.broken {
        Some((_, Break::Feed)) => (b'\n', "the lines end in LF alone, as on Unix"),
        Some((_, Break::Return)) => (b'\r', "the lines end in CR alone, as on old Macs"),
        _ => return None,
    };
    let mend = "save the table with line ends of CR LF, as on Windows";
    (ends_alone(table, end) && !may_go_on(table)).then(|| Advice::new(what, mend))
}

/// A row behind whose end nothing was read. With a CR put before each LF it is at most twice as long as in the file.
pub(crate) fn endless() -> Advice {
    Advice::new(
        "it is longer than 500,000 bytes",
        format!(
            "write rows of four fields, {HEADER}, and close each quotation mark within its field"
        ),
    )
}

/// The table with a carriage return before each line feed that lacks one. A table that needs this is not of RFC 4180: the proved code refuses
/// it, and nothing mends it unless it is asked for.
///
/// ```
/// use lukhveri::Plan;
/// use lukhveri::draft::with_returns;
///
/// let table = b"kind,left,right,citation\nbase,0,1,5\n";
/// assert_eq!(Plan::from_table(table).expect_err("a bare line feed").number(), 16);
/// assert!(Plan::from_table(&with_returns(table)).is_ok());
/// ```
pub fn with_returns(table: &[u8]) -> Vec<u8> {
    let mut all = Vec::with_capacity(table.len());
    for byte in table {
        if *byte == b'\n' && all.last() != Some(&b'\r') {
            all.push(b'\r');
        }
        all.push(*byte);
    }
    all
}

/// What is said of a file without a byte.
pub(crate) fn empty() -> Advice {
    Advice::new(
        "the file is empty",
        format!("write {HEADER} in the first row, and below it a row for each rule"),
    )
}
