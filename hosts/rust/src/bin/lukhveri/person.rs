//! A person of the command line: a number or a name.

use std::ffi::OsStr;
use std::path::Path;

use lukhveri::limits;

use crate::arguments::Arguments;
use crate::files::Inputs;
use crate::outcome::Trouble;

/// That nobody has the name, or that there are no names.
fn unnamed(path: &Path, word: &str) -> String {
    match path.exists() {
        true => format!("{} has no person '{word}'", path.display()),
        false => format!("there is no {}: give a number, not '{word}'", path.display()),
    }
}

/// A number from 0 to 63, or a name of names.txt that one person has.
pub fn find(arguments: &Arguments, word: &OsStr, inputs: &Inputs) -> Result<u8, Trouble> {
    let word = word.to_string_lossy();
    let word = word.trim();
    if let Ok(number) = word.parse::<u64>() {
        let person = u8::try_from(number).ok().filter(|p| usize::from(*p) < limits::PERSONS);
        let wrong = || arguments.wrong_use(format!("there is no person {number}, only 0 to 63"));
        return person.ok_or_else(wrong);
    }
    match inputs.names.called(word).iter().collect::<Vec<_>>().as_slice() {
        [person] => Ok(*person),
        [] => Err(arguments.wrong_use(unnamed(&inputs.path("names.txt"), word))),
        [first, second, ..] => Err(arguments.wrong_use(format!(
            "person {first} and person {second} are both called '{word}': give a number"
        ))),
    }
}
