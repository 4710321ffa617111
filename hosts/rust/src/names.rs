//! Names from names.txt: `person 3 Anna`, one to a line.

use std::collections::BTreeMap;
use std::fmt;

use crate::limits;
use crate::persons::Persons;

/// What can have a name, and its highest number.
const KINDS: [(&str, u8); 12] = [
    ("person", 63),
    ("fact", 63),
    ("citation", 63),
    ("decision", 15),
    ("edge", 63),
    ("cut", 15),
    ("attachment", 31),
    ("bar", 31),
    ("status", 31),
    ("actor", 255),
    ("evidence", 63),
    ("family", 255),
];

/// A line that gives no name.
#[derive(Clone, Debug, PartialEq, Eq)]
pub struct NameFault {
    /// From 1.
    line: usize,
    what: String,
}

impl fmt::Display for NameFault {
    fn fmt(&self, to: &mut fmt::Formatter) -> fmt::Result {
        write!(to, "line {}: {}", self.line, self.what)
    }
}

impl std::error::Error for NameFault {}

/// A name, where it was given, and whether it could be taken for something else of its kind.
#[derive(Clone, Debug)]
struct Named {
    name: String,
    /// From 1.
    line: usize,
    alike: bool,
}

/// A name of the file.
#[derive(Clone, Copy, Debug, PartialEq, Eq)]
pub struct Entry<'a> {
    pub kind: &'static str,
    pub number: u8,
    pub name: &'a str,
    /// From 1.
    pub line: usize,
}

/// Names by kind and number.
#[derive(Clone, Debug, Default)]
pub struct Names {
    names: BTreeMap<(&'static str, u8), Named>,
    /// There is a names.txt, but it has a fault.
    unused: bool,
}

impl Names {
    /// Empty lines and lines that begin with # say nothing; a byte order mark at the start is stepped over.
    pub fn read(text: &str) -> Result<Names, NameFault> {
        let text = text.strip_prefix('\u{feff}').unwrap_or(text);
        let mut names = Names::default();
        for (line, said) in (1..).zip(text.lines().map(str::trim)) {
            if !said.is_empty() && !said.starts_with('#') {
                names.add(said, line).map_err(|what| NameFault { line, what })?;
            }
        }
        names.tell_apart();
        Ok(names)
    }

    /// No names, as those of names.txt are not used because of its fault.
    pub fn unused() -> Names {
        Names { unused: true, ..Names::default() }
    }

    /// Whether a names.txt is there that is not used.
    pub fn are_unused(&self) -> bool {
        self.unused
    }

    fn add(&mut self, said: &str, line: usize) -> Result<(), String> {
        let (word, rest) = first_word(said);
        let (digits, name) = first_word(rest);
        let kinds = KINDS.map(|(kind, _)| kind).join(", ");
        let Some(&(kind, most)) = KINDS.iter().find(|(kind, _)| *kind == word) else {
            return Err(format!("'{word}' cannot have a name; these can: {kinds}"));
        };
        let number = digits.parse().ok().filter(|number| *number <= most);
        let Some(number) = number else {
            return Err(format!("'{digits}' is no number of {}: 0 to {most}", a(kind)));
        };
        if name.is_empty() {
            return Err(format!("{kind} {number} has no name; write: {kind} {number} NAME"));
        }
        if name.chars().any(char::is_control) {
            return Err(format!("the name of {kind} {number} has a control character"));
        }
        let named = Named { name: name.to_string(), line, alike: false };
        match self.names.insert((kind, number), named) {
            Some(before) => Err(format!("{kind} {number} is named already: {}", before.name)),
            None => Ok(()),
        }
    }

    /// Marks names that look alike, and those that look like a number of their kind.
    fn tell_apart(&mut self) {
        let mut counts: BTreeMap<(&str, String), usize> = BTreeMap::new();
        for ((kind, _), named) in &self.names {
            *counts.entry((kind, look(&named.name))).or_default() += 1;
        }
        for ((kind, _), named) in &mut self.names {
            let look = look(&named.name);
            let numbered = like_a_number(kind, &look);
            named.alike = numbered || counts.get(&(*kind, look)).is_some_and(|count| *count > 1);
        }
    }

    /// The name as it was given. [`of`](Names::of) tells names apart that look alike.
    pub fn find(&self, kind: &'static str, number: u8) -> Option<&str> {
        self.names.get(&(kind, number)).map(|named| named.name.as_str())
    }

    /// The name, or kind and number; both where the name could be taken for something else: "Anna (person 3)".
    pub fn of(&self, kind: &'static str, number: u8) -> String {
        match self.names.get(&(kind, number)) {
            None => format!("{kind} {number}"),
            Some(Named { name, alike: true, .. }) => format!("{name} ({kind} {number})"),
            Some(Named { name, .. }) => name.clone(),
        }
    }

    /// Kind and number, and the name if there is one: "person 3 (Anna)". For those who look for the number in a file.
    pub fn numbered(&self, kind: &'static str, number: u8) -> String {
        match self.find(kind, number) {
            None => format!("{kind} {number}"),
            Some(name) => format!("{kind} {number} ({name})"),
        }
    }

    /// Who has that name, as it was given.
    pub fn called(&self, name: &str) -> Persons {
        let named = (0..).take(limits::PERSONS).filter(|p| self.find("person", *p) == Some(name));
        named.fold(Persons::NOBODY, |all, person| all.union(Persons::alone(person)))
    }

    pub fn person(&self, number: u8) -> String {
        self.of("person", number)
    }

    pub fn persons(&self, numbers: impl IntoIterator<Item = u8>) -> String {
        listed(numbers.into_iter().map(|number| self.person(number)))
    }

    pub fn citations(&self, numbers: impl IntoIterator<Item = u8>) -> String {
        listed(numbers.into_iter().map(|number| self.of("citation", number)))
    }

    /// All names, by their lines.
    pub fn entries(&self) -> Vec<Entry<'_>> {
        let entry =
            |(&(kind, number), named): (&(&'static str, u8), &'_ Named)| (kind, number, named.line);
        let mut places: Vec<(&'static str, u8, usize)> = self.names.iter().map(entry).collect();
        places.sort_by_key(|(_, _, line)| *line);
        let named = places.into_iter();
        named
            .filter_map(|(kind, number, line)| {
                Some(Entry { kind, number, name: self.find(kind, number)?, line })
            })
            .collect()
    }
}

/// An edge, a cut.
fn a(kind: &str) -> String {
    let vowel = kind.starts_with(['a', 'e', 'i', 'o', 'u']);
    format!("{} {kind}", if vowel { "an" } else { "a" })
}

/// How a name looks: large and small letters alike, spaces as one, nothing that cannot be seen.
fn look(name: &str) -> String {
    let unseen = |letter: char| matches!(letter, '\u{ad}' | '\u{200b}'..='\u{200f}' | '\u{202a}'..='\u{202e}' | '\u{2060}'..='\u{206f}' | '\u{feff}');
    let seen: String = name.chars().filter(|letter| !unseen(*letter)).collect();
    seen.to_lowercase().split_whitespace().collect::<Vec<_>>().join(" ")
}

/// Whether a name has kind and number in it, as what has no name is called, or is a number itself.
fn like_a_number(kind: &str, look: &str) -> bool {
    if look.chars().all(|c| c.is_ascii_digit()) {
        return true;
    }
    let digit = |rest: &str| {
        rest.strip_prefix(' ').is_some_and(|rest| rest.starts_with(|c: char| c.is_ascii_digit()))
    };
    look.split(kind).skip(1).any(digit)
}

fn first_word(text: &str) -> (&str, &str) {
    let (word, rest) = text.split_once(char::is_whitespace).unwrap_or((text, ""));
    (word, rest.trim_start())
}

/// A, B and C; nobody for none.
pub fn listed(items: impl IntoIterator<Item = String>) -> String {
    let mut items: Vec<String> = items.into_iter().collect();
    match items.pop() {
        None => "nobody".to_string(),
        Some(last) if items.is_empty() => last,
        Some(last) => format!("{} and {last}", items.join(", ")),
    }
}

/// First letter large, behind any spaces.
pub fn sentence(text: &str) -> String {
    let words = text.trim_start();
    let (indent, _) = text.split_at(text.len() - words.len());
    let mut letters = words.chars();
    let first = letters.next().map(|letter| letter.to_uppercase().to_string());
    format!("{indent}{}{}", first.unwrap_or_default(), letters.as_str())
}
