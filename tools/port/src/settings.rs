//! The words of a program that measures classes of inputs.

use std::process::exit;

use inputs::classes::{ALL, Class};

pub struct Settings {
    pub classes: Vec<&'static Class>,
    pub rounds: u32,
}

/// Says what is wrong with the words, and ends.
pub fn fail(program: &str, what: &str) -> ! {
    eprintln!("{program}: {what}; tools/{program} --help says more");
    exit(2)
}

fn class_of(program: &str, name: &str) -> &'static Class {
    let names: Vec<&str> = ALL.iter().map(|class| class.name).collect();
    let found = ALL.iter().find(|class| class.name == name);
    found.unwrap_or_else(|| {
        let what = format!("no class {name}; there are {}", names.join(", "));
        fail(program, &what)
    })
}

/// `--class NAME`, `--rounds N`.
pub fn settings(program: &str, words: impl Iterator<Item = String>) -> Settings {
    let mut words = words;
    let (mut classes, mut rounds) = (Vec::new(), 15);
    while let Some(word) = words.next() {
        match word.as_str() {
            "--class" => classes.push(class_of(program, &words.next().unwrap_or_default())),
            "--rounds" => match words.next().and_then(|number| number.parse().ok()) {
                Some(number) if number > 0 => rounds = number,
                _ => fail(program, "--rounds needs a number from 1 on"),
            },
            _ => fail(program, &format!("unknown word {word}")),
        }
    }
    if classes.is_empty() {
        classes = ALL.iter().collect();
    }
    Settings { classes, rounds }
}
