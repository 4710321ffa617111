//! The words behind a command: options and the rest.

use std::ffi::{OsStr, OsString};

use crate::commands::Command;
use crate::outcome::Trouble;

pub fn is_help(word: &OsString) -> bool {
    word == "-h" || word == "--help"
}

/// Options with and without a value, and the other words in order.
#[derive(Debug)]
pub struct Arguments {
    command: &'static Command,
    words: Vec<OsString>,
    flags: Vec<&'static str>,
    values: Vec<(&'static str, OsString)>,
}

impl Arguments {
    pub fn read(command: &'static Command, all: &[OsString]) -> Result<Arguments, Trouble> {
        let (words, flags, values) = (Vec::new(), Vec::new(), Vec::new());
        let mut arguments = Arguments { command, words, flags, values };
        let mut rest = all.iter();
        while let Some(word) = rest.next() {
            let is_word = word == "-" || !word.as_encoded_bytes().starts_with(b"-");
            if word.is_empty() {
                return Err(arguments.wrong_use("an empty word is given".to_string()));
            } else if is_word {
                arguments.words.push(word.clone());
            } else if word == "--" {
                arguments.words.extend(rest.by_ref().cloned());
            } else {
                arguments.option(word, &mut rest)?;
            }
        }
        Ok(arguments)
    }

    fn option<'a>(
        &mut self,
        word: &OsStr,
        rest: &mut impl Iterator<Item = &'a OsString>,
    ) -> Result<(), Trouble> {
        let text = word.to_string_lossy();
        let (name, joined) = match text.split_once('=') {
            Some((name, value)) => (name, Some(OsString::from(value))),
            None => (&*text, None),
        };
        if let Some(flag) = find(self.command.flags, name) {
            self.flags.push(flag);
            return match joined {
                Some(_) => Err(self.wrong_use(format!("{flag} takes no value"))),
                None => Ok(()),
            };
        }
        let Some(option) = find(self.command.valued, name) else {
            return Err(self.wrong_use(format!("there is no option {name}")));
        };
        let Some(value) = joined.or_else(|| rest.next().cloned()) else {
            return Err(self.wrong_use(format!("{option} wants a value")));
        };
        if self.value(option).is_some() {
            return Err(self.wrong_use(format!("{option} is given twice")));
        }
        self.values.push((option, value));
        Ok(())
    }

    pub fn has(&self, flag: &str) -> bool {
        self.flags.contains(&flag)
    }

    pub fn value(&self, option: &str) -> Option<&OsStr> {
        self.values.iter().find(|(name, _)| *name == option).map(|(_, value)| value.as_os_str())
    }

    pub fn words(&self) -> &[OsString] {
        &self.words
    }

    /// Just one word.
    pub fn one(&self, what: &str) -> Result<&OsStr, Trouble> {
        match self.words.as_slice() {
            [word] => Ok(word),
            [] => Err(self.wrong_use(format!("{what} is wanted"))),
            [_, second, ..] => Err(self.too_many(second)),
        }
    }

    /// Just two words.
    pub fn two(&self, first: &str, second: &str) -> Result<(&OsStr, &OsStr), Trouble> {
        match self.words.as_slice() {
            [one, two] => Ok((one, two)),
            [_, _, third, ..] => Err(self.too_many(third)),
            [_] => Err(self.wrong_use(format!("{second} is wanted behind {first}"))),
            [] => Err(self.wrong_use(format!("{first} and {second} are wanted"))),
        }
    }

    fn too_many(&self, word: &OsStr) -> Trouble {
        self.wrong_use(format!("'{}' is a word too many", word.to_string_lossy()))
    }

    pub fn wrong_use(&self, what: String) -> Trouble {
        Trouble::wrong_use(Some(self.command.name), what)
    }
}

fn find(names: &[&'static str], name: &str) -> Option<&'static str> {
    names.iter().find(|known| **known == name).copied()
}
