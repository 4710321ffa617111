//! JSON, as it is written (RFC 8259): one line, members in the order given.

use std::fmt::{self, Write};

#[derive(Clone, Debug)]
pub enum Json {
    Null,
    Bool(bool),
    Number(u64),
    Text(String),
    List(Vec<Json>),
    Object(Vec<(&'static str, Json)>),
}

impl Json {
    pub fn object<const N: usize>(members: [(&'static str, Json); N]) -> Json {
        Json::Object(members.into())
    }

    pub fn list<T: Into<Json>>(items: impl IntoIterator<Item = T>) -> Json {
        Json::List(items.into_iter().map(Into::into).collect())
    }

    /// An object with one member more; anything else stays as it is.
    pub fn with(mut self, name: &'static str, value: impl Into<Json>) -> Json {
        if let Json::Object(members) = &mut self {
            members.push((name, value.into()));
        }
        self
    }

    /// The members of two objects; anything else stays as it is.
    pub fn and(mut self, other: Json) -> Json {
        if let (Json::Object(members), Json::Object(more)) = (&mut self, other) {
            members.extend(more);
        }
        self
    }

    /// The line that is printed.
    pub fn line(&self) -> String {
        format!("{self}\n")
    }
}

impl From<bool> for Json {
    fn from(value: bool) -> Json {
        Json::Bool(value)
    }
}

impl From<u8> for Json {
    fn from(number: u8) -> Json {
        Json::Number(u64::from(number))
    }
}

impl From<u64> for Json {
    fn from(number: u64) -> Json {
        Json::Number(number)
    }
}

impl From<usize> for Json {
    fn from(number: usize) -> Json {
        Json::Number(number as u64)
    }
}

impl From<&str> for Json {
    fn from(text: &str) -> Json {
        Json::Text(text.to_string())
    }
}

impl From<String> for Json {
    fn from(text: String) -> Json {
        Json::Text(text)
    }
}

/// Null for none.
impl<T: Into<Json>> From<Option<T>> for Json {
    fn from(value: Option<T>) -> Json {
        value.map_or(Json::Null, Into::into)
    }
}

impl fmt::Display for Json {
    fn fmt(&self, to: &mut fmt::Formatter) -> fmt::Result {
        match self {
            Json::Null => write!(to, "null"),
            Json::Bool(value) => write!(to, "{value}"),
            Json::Number(number) => write!(to, "{number}"),
            Json::Text(text) => quoted(text, to),
            Json::List(items) => {
                to.write_char('[')?;
                parted(items, to, |item, to| write!(to, "{item}"))?;
                to.write_char(']')
            }
            Json::Object(members) => {
                to.write_char('{')?;
                parted(members, to, |(name, value), to| write!(to, "\"{name}\":{value}"))?;
                to.write_char('}')
            }
        }
    }
}

fn parted<T>(
    items: &[T],
    to: &mut fmt::Formatter,
    write: impl Fn(&T, &mut fmt::Formatter) -> fmt::Result,
) -> fmt::Result {
    for (at, item) in items.iter().enumerate() {
        if at > 0 {
            to.write_char(',')?;
        }
        write(item, to)?;
    }
    Ok(())
}

/// Quotation marks, backslashes and control characters are escaped; all else stands as it is.
fn quoted(text: &str, to: &mut fmt::Formatter) -> fmt::Result {
    to.write_char('"')?;
    for letter in text.chars() {
        match letter {
            '"' => to.write_str("\\\"")?,
            '\\' => to.write_str("\\\\")?,
            '\n' => to.write_str("\\n")?,
            letter if letter.is_control() => write!(to, "\\u{:04x}", u32::from(letter))?,
            letter => to.write_char(letter)?,
        }
    }
    to.write_char('"')
}

#[cfg(test)]
mod tests {
    use super::*;

    #[test]
    fn values_are_written_as_the_format_says() {
        let json = Json::object([("a", Json::list([0u8, 63])), ("b", Json::Null)])
            .with("c", "say \"so\" \\ \n\u{1}\u{7f} é")
            .with("d", true)
            .with("e", u64::MAX)
            .with("f", None::<u8>);
        let wanted = r#"{"a":[0,63],"b":null,"c":"say \"so\" \\ \n\u0001\u007f é","d":true,"e":18446744073709551615,"f":null}"#;
        assert_eq!(json.to_string(), wanted);
        assert_eq!(Json::list(Vec::<u8>::new()).line(), "[]\n");
    }
}
