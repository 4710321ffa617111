//! The rows of a table by RFC 4180, byte by byte, up to the first whose quoting breaks.

/// How the quoting of a row breaks.
#[derive(Clone, Copy, Debug, PartialEq, Eq)]
pub(crate) enum Break {
    /// A quotation mark opens a field and is never closed.
    Unclosed,
    /// Something stands between the closing quotation mark and the end of the field.
    Behind,
    /// A quotation mark stands within a field that does not begin with one.
    Within,
    /// Blanks alone stand before the quotation mark of a field.
    Blank,
    /// A carriage return without a line feed.
    Return,
    /// A line feed without a carriage return.
    Feed,
}

/// A field without its quoting, and where it begins.
#[derive(Clone, Debug, PartialEq, Eq)]
pub(crate) struct Field {
    pub(crate) at: usize,
    pub(crate) bytes: Vec<u8>,
}

/// A row: its fields, as far as they can be told apart.
#[derive(Clone, Debug, PartialEq, Eq)]
pub(crate) struct Row {
    pub(crate) at: usize,
    pub(crate) fields: Vec<Field>,
    /// Where the next row begins.
    pub(crate) end: usize,
    /// Where the quoting breaks, and how.
    pub(crate) broken: Option<(usize, Break)>,
}

/// Behind a row that breaks there are no more: where they would begin cannot be told.
pub(crate) struct Rows<'a> {
    table: &'a [u8],
    at: usize,
}

impl<'a> Rows<'a> {
    pub(crate) fn of(table: &'a [u8]) -> Rows<'a> {
        Rows { table, at: 0 }
    }

    fn rest(&self) -> &'a [u8] {
        self.table.get(self.at..).unwrap_or_default()
    }

    /// Whether the table goes on with this, which is then stepped over.
    fn skip(&mut self, what: &[u8]) -> bool {
        let skipped = self.rest().starts_with(what);
        self.at += if skipped { what.len() } else { 0 };
        skipped
    }

    /// The bytes before the first that meets a condition, or up to the end.
    fn until(&mut self, stop: impl Fn(&u8) -> bool) -> &'a [u8] {
        let rest = self.rest();
        let (before, _) = rest.split_at(rest.iter().position(stop).unwrap_or(rest.len()));
        self.at += before.len();
        before
    }

    /// Fields are added until the row ends or breaks.
    fn row(&mut self, fields: &mut Vec<Field>) -> Result<(), (usize, Break)> {
        loop {
            fields.push(self.field()?);
            if self.skip(b",") {
                continue;
            }
            return match self.rest() {
                [] => Ok(()),
                [b'\r', b'\n', ..] => {
                    self.at += 2;
                    Ok(())
                }
                [b'\r', ..] => Err((self.at, Break::Return)),
                [b'\n', ..] => Err((self.at, Break::Feed)),
                _ => Err((self.at, Break::Behind)),
            };
        }
    }

    fn field(&mut self) -> Result<Field, (usize, Break)> {
        let at = self.at;
        if self.skip(b"\"") {
            return self.quoted(at);
        }
        let bytes = self.until(|byte| b",\r\n\"".contains(byte)).to_vec();
        match self.rest().starts_with(b"\"") {
            true if bytes.iter().all(|byte| b" \t".contains(byte)) => Err((self.at, Break::Blank)),
            true => Err((self.at, Break::Within)),
            false => Ok(Field { at, bytes }),
        }
    }

    /// Up to the quotation mark that closes it; two of them stand for one.
    fn quoted(&mut self, at: usize) -> Result<Field, (usize, Break)> {
        let mut bytes = Vec::new();
        loop {
            bytes.extend(self.until(|byte| *byte == b'"'));
            if !self.skip(b"\"") {
                return Err((at, Break::Unclosed));
            }
            if !self.skip(b"\"") {
                return Ok(Field { at, bytes });
            }
            bytes.push(b'"');
        }
    }
}

impl Iterator for Rows<'_> {
    type Item = Row;

    fn next(&mut self) -> Option<Row> {
        if self.rest().is_empty() {
            return None;
        }
        let (at, mut fields) = (self.at, Vec::new());
        let broken = self.row(&mut fields).err();
        if broken.is_some() {
            self.at = self.table.len();
        }
        Some(Row { at, fields, end: self.at, broken })
    }
}

#[cfg(test)]
mod tests {
    use super::*;

    /// The fields of each row, and how the last one breaks.
    fn rows(table: &str) -> (Vec<Vec<String>>, Option<(usize, Break)>) {
        let all: Vec<Row> = Rows::of(table.as_bytes()).collect();
        let text = |field: &Field| String::from_utf8(field.bytes.clone()).expect("text");
        let fields = all.iter().map(|row| row.fields.iter().map(text).collect());
        (fields.collect(), all.last().and_then(|row| row.broken))
    }

    fn fields(rows: &[&[&str]]) -> Vec<Vec<String>> {
        rows.iter().map(|row| row.iter().map(|field| field.to_string()).collect()).collect()
    }

    #[test]
    fn rows_end_in_cr_lf_which_the_last_may_lack() {
        let wanted = fields(&[&["a", "b"], &["c", ""], &[""], &["", "d"]]);
        for table in ["a,b\r\nc,\r\n\r\n,d\r\n", "a,b\r\nc,\r\n\r\n,d"] {
            assert_eq!(rows(table), (wanted.clone(), None), "{table:?}");
        }
        assert_eq!(rows(""), (Vec::new(), None));
        assert_eq!(rows("\r\n"), (fields(&[&[""]]), None));
    }

    #[test]
    fn quoted_fields_hold_anything() {
        let table = "\"a, \"\"b\"\"\",\"two\r\nlines\n\"\r\n\"\",c";
        let wanted = fields(&[&["a, \"b\"", "two\r\nlines\n"], &["", "c"]]);
        assert_eq!(rows(table), (wanted, None));
        assert_eq!(rows("\"\"\"\"").0, fields(&[&["\""]]));
    }

    #[test]
    fn where_it_breaks() {
        for (table, wanted, at, how) in [
            ("a,b\r\n\"c,d\r\n", &[&["a", "b"][..], &[]][..], 5, Break::Unclosed),
            ("a,\"b\"\"", &[&["a"]], 2, Break::Unclosed),
            ("a\"b,c\r\nd", &[&[]], 1, Break::Within),
            ("a,b \"c\"", &[&["a"]], 4, Break::Within),
            ("a,  \"b\"", &[&["a"]], 4, Break::Blank),
            ("\"a\"b,c", &[&["a"]], 3, Break::Behind),
            ("\"a\" ,c", &[&["a"]], 3, Break::Behind),
            ("a,b\nc,d\n", &[&["a", "b"]], 3, Break::Feed),
            ("a,b\rc,d\r", &[&["a", "b"]], 3, Break::Return),
            ("a,b\r\nc,d\r", &[&["a", "b"], &["c", "d"]], 8, Break::Return),
            ("a,\"b\"\n", &[&["a", "b"]], 5, Break::Feed),
        ] {
            assert_eq!(rows(table), (fields(wanted), Some((at, how))), "{table:?}");
        }
    }

    #[test]
    fn places() {
        let all: Vec<Row> = Rows::of(b"a,\"b\"\r\nc").collect();
        let at: Vec<usize> = all.iter().flat_map(|row| &row.fields).map(|field| field.at).collect();
        assert_eq!((at, all[0].end, all[1].at), (vec![0, 2, 7], 7, 7));
    }
}
