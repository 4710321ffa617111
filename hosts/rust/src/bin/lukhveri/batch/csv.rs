//! Rows of comma-separated values (RFC 4180).

/// One row, ended by CR LF. A field with a comma, a quotation mark, a line end or a blank at its ends is quoted.
pub fn row(fields: &[&[u8]], to: &mut Vec<u8>) {
    for (at, field) in fields.iter().enumerate() {
        if at > 0 {
            to.push(b',');
        }
        if needs_quotes(field) {
            quote(field, to);
        } else {
            to.extend_from_slice(field);
        }
    }
    to.extend_from_slice(b"\r\n");
}

fn needs_quotes(field: &[u8]) -> bool {
    let special = |byte: &u8| matches!(byte, b',' | b'"' | b'\r' | b'\n');
    field.iter().any(special) || field.starts_with(b" ") || field.ends_with(b" ")
}

fn quote(field: &[u8], to: &mut Vec<u8>) {
    to.push(b'"');
    for &byte in field {
        if byte == b'"' {
            to.push(b'"');
        }
        to.push(byte);
    }
    to.push(b'"');
}

#[cfg(test)]
mod tests {
    use super::*;

    #[test]
    fn fields_are_quoted_where_they_must_be() {
        let mut text = Vec::new();
        row(&[b"a b", b"0,1", b"say \"so\"", b"", b" x", b"two\nlines"], &mut text);
        assert_eq!(text, b"a b,\"0,1\",\"say \"\"so\"\"\",,\" x\",\"two\nlines\"\r\n");
    }
}
