//! Reads JSON, strictly.

use std::collections::BTreeMap;

#[derive(Clone, Debug, PartialEq)]
pub enum Value {
    Null,
    Bool(bool),
    Number(u64),
    Text(String),
    List(Vec<Value>),
    Object(BTreeMap<String, Value>),
}

impl Value {
    /// A member of an object, or null.
    pub fn at(&self, name: &str) -> &Value {
        match self {
            Value::Object(members) => members.get(name).unwrap_or(&Value::Null),
            _ => &Value::Null,
        }
    }

    pub fn number(&self) -> u64 {
        match self {
            Value::Number(number) => *number,
            _ => panic!("{self:?} is no number"),
        }
    }

    pub fn list(&self) -> &[Value] {
        match self {
            Value::List(items) => items,
            _ => panic!("{self:?} is no list"),
        }
    }

    pub fn text(&self) -> &str {
        match self {
            Value::Text(text) => text,
            _ => panic!("{self:?} is no text"),
        }
    }
}

/// The one value of a line that ends with a line feed.
pub fn read(line: &str) -> Value {
    let text = line.strip_suffix('\n').expect("a line feed at the end");
    let mut reader = Reader { rest: text };
    let value = reader.value();
    assert_eq!(reader.rest, "", "something stands behind the value: {text}");
    value
}

struct Reader<'a> {
    rest: &'a str,
}

impl Reader<'_> {
    fn skip(&mut self, word: &str) -> bool {
        match self.rest.strip_prefix(word) {
            Some(rest) => {
                self.rest = rest;
                true
            }
            None => false,
        }
    }

    fn wants(&mut self, word: &str) {
        assert!(self.skip(word), "{word} is wanted at {}", self.rest);
    }

    fn value(&mut self) -> Value {
        if self.skip("null") {
            Value::Null
        } else if self.skip("true") {
            Value::Bool(true)
        } else if self.skip("false") {
            Value::Bool(false)
        } else if self.rest.starts_with('"') {
            Value::Text(self.text())
        } else if self.skip("[") {
            Value::List(self.parted("]", Reader::value))
        } else if self.skip("{") {
            let members = self.parted("}", |reader| {
                let name = reader.text();
                reader.wants(":");
                (name, reader.value())
            });
            let count = members.len();
            let members: BTreeMap<String, Value> = members.into_iter().collect();
            assert_eq!(members.len(), count, "a member stands twice");
            Value::Object(members)
        } else {
            self.number()
        }
    }

    fn parted<T>(&mut self, end: &str, mut one: impl FnMut(&mut Self) -> T) -> Vec<T> {
        let mut all = Vec::new();
        while !self.skip(end) {
            if !all.is_empty() {
                self.wants(",");
            }
            all.push(one(self));
        }
        all
    }

    fn number(&mut self) -> Value {
        let digits = self.rest.chars().take_while(char::is_ascii_digit).count();
        let (number, rest) = self.rest.split_at(digits);
        assert!(number == "0" || !number.starts_with('0'), "a zero before {number}");
        self.rest = rest;
        Value::Number(number.parse().expect("a number"))
    }

    fn text(&mut self) -> String {
        self.wants("\"");
        let mut text = String::new();
        while !self.skip("\"") {
            text.push(self.letter());
        }
        text
    }

    fn letter(&mut self) -> char {
        for (escape, letter) in [("\\\"", '"'), ("\\\\", '\\'), ("\\n", '\n')] {
            if self.skip(escape) {
                return letter;
            }
        }
        if self.skip("\\u") {
            let (digits, rest) = self.rest.split_at(4);
            self.rest = rest;
            let code = u32::from_str_radix(digits, 16).expect("four digits");
            return char::from_u32(code).expect("a character");
        }
        let letter = self.rest.chars().next().expect("the end of a text");
        assert!(letter >= ' ' && letter != '\\', "a control character in a text");
        self.rest = &self.rest[letter.len_utf8()..];
        letter
    }
}
