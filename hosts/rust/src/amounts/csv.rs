//! The rows of a text by RFC 4180, but that a row may end in a line feed alone.

use std::fmt;

/// Where the quoting of a row is broken.
#[derive(Clone, Copy, Debug, PartialEq, Eq)]
pub(crate) enum Quoting {
    /// A quotation mark that is not closed.
    Unclosed,
    /// A quotation mark within a field that does not begin with one, or something behind a closing one.
    Stray,
}

/// What would mend it, too.
impl fmt::Display for Quoting {
    fn fmt(&self, to: &mut fmt::Formatter) -> fmt::Result {
        to.write_str(match self {
            Quoting::Unclosed => "a quotation mark is not closed; close it, or take it away",
            Quoting::Stray => {
                "a quotation mark stands within a field; put the whole field in quotation marks, and write two for each within it"
            }
        })
    }
}

/// The fields of each row. Where the quoting is broken, nothing behind it can be told apart, and there are no more rows.
pub(crate) struct Rows<'a> {
    rest: &'a str,
}

impl<'a> Rows<'a> {
    pub(crate) fn of(text: &'a str) -> Rows<'a> {
        Rows { rest: text }
    }

    /// Whether the text goes on with this, which is then stepped over.
    fn skip(&mut self, what: &str) -> bool {
        let rest = self.rest.strip_prefix(what);
        self.rest = rest.unwrap_or(self.rest);
        rest.is_some()
    }

    fn row(&mut self) -> Result<Vec<String>, Quoting> {
        let mut fields = vec![self.field()?];
        while self.skip(",") {
            fields.push(self.field()?);
        }
        match self.skip("\r\n") || self.skip("\n") || self.rest.is_empty() {
            true => Ok(fields),
            false => Err(Quoting::Stray),
        }
    }

    fn field(&mut self) -> Result<String, Quoting> {
        if self.skip("\"") { self.quoted() } else { self.plain() }
    }

    /// Up to the quotation mark that closes it; two of them stand for one.
    fn quoted(&mut self) -> Result<String, Quoting> {
        let mut field = String::new();
        while let Some((before, behind)) = self.rest.split_once('"') {
            field += before;
            self.rest = behind;
            if !self.skip("\"") {
                return Ok(field);
            }
            field.push('"');
        }
        Err(Quoting::Unclosed)
    }

    /// Up to a comma or the end of the row.
    fn plain(&mut self) -> Result<String, Quoting> {
        let end = self.rest.find([',', '\n']).unwrap_or(self.rest.len());
        let (field, behind) = self.rest.split_at(end);
        let field = match behind.starts_with('\n') {
            true => field.strip_suffix('\r').unwrap_or(field),
            false => field,
        };
        if field.contains('"') {
            return Err(Quoting::Stray);
        }
        self.skip(field);
        Ok(field.to_string())
    }
}

impl Iterator for Rows<'_> {
    type Item = Result<Vec<String>, Quoting>;

    fn next(&mut self) -> Option<Self::Item> {
        if self.rest.is_empty() {
            return None;
        }
        let row = self.row();
        if row.is_err() {
            self.rest = "";
        }
        Some(row)
    }
}

#[cfg(test)]
mod tests {
    use super::*;

    fn rows(text: &str) -> Vec<Result<Vec<String>, Quoting>> {
        Rows::of(text).collect()
    }

    fn row(fields: &[&str]) -> Result<Vec<String>, Quoting> {
        Ok(fields.iter().map(|field| field.to_string()).collect())
    }

    #[test]
    fn rows_end_in_either_way_or_with_the_text() {
        let wanted = [row(&["a", "b"]), row(&["c", ""]), row(&[""]), row(&["", "d"])];
        for text in ["a,b\r\nc,\r\n\r\n,d\r\n", "a,b\nc,\n\n,d", "a,b\r\nc,\n\r\n,d\n"] {
            assert_eq!(rows(text), wanted, "{text:?}");
        }
        assert_eq!(rows(""), []);
        assert_eq!(rows("a,b\r"), [row(&["a", "b\r"])]);
        assert_eq!(rows("a\rb,c"), [row(&["a\rb", "c"])]);
    }

    #[test]
    fn quoted_fields_hold_anything() {
        let text = "\"a, \"\"b\"\"\",\"two\r\nrows\"\r\n\"\",c\n";
        assert_eq!(rows(text), [row(&["a, \"b\"", "two\r\nrows"]), row(&["", "c"])]);
    }

    #[test]
    fn broken_quoting_ends_the_rows() {
        assert_eq!(rows("a,b\n\"c,d\n"), [row(&["a", "b"]), Err(Quoting::Unclosed)]);
        assert_eq!(rows("a\"b,c\nd,e"), [Err(Quoting::Stray)]);
        assert_eq!(rows("\"a\"b,c\nd,e"), [Err(Quoting::Stray)]);
        assert_eq!(rows("\"a\" ,c"), [Err(Quoting::Stray)]);
    }
}
