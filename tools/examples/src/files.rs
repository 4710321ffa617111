//! The files that the examples and pictures are, each with its path from the root of the repository.

use std::fmt::Write;

use crate::example::{Example, Word, Words};
use crate::printed::printed;
use crate::{all, roster_picture, tree_picture};

type File = (String, Vec<u8>);

pub fn files() -> Result<Vec<File>, String> {
    let examples = all().map_err(|error| error.to_string())?;
    let mut files: Vec<File> = examples.iter().flat_map(folder).collect();
    let kitchen = examples.iter().find(|example| example.folder == "kitchen");
    let kitchen = kitchen.ok_or("there is no kitchen")?;
    let pictures =
        [("roster", roster_picture::draw(kitchen)?), ("tree", tree_picture::draw(kitchen)?)];
    for (name, picture) in pictures {
        files.push((format!("docs/pictures/{name}.svg"), picture.into_bytes()));
    }
    Ok(files)
}

fn folder(example: &Example) -> Vec<File> {
    let (plan, case) = (example.plan.bytes(), example.case.bytes());
    let printed = printed(&lukhveri::answer(plan, case));
    let at = |name: &str| format!("examples/{}/{name}", example.folder);
    let mut files = vec![
        (at("plan.bin"), plan.to_vec()),
        (at("case.bin"), case.to_vec()),
        (at("README.md"), readme(example, &printed).into_bytes()),
        (at("names.txt"), names(&example.words).into_bytes()),
        (at("printed.txt"), printed.into_bytes()),
    ];
    if !example.amounts.is_empty() {
        files.push((at("amounts.csv"), amounts(example).into_bytes()));
    }
    files.extend(example.sheets.iter().map(|sheet| (at(sheet.file), sheet.bytes.to_vec())));
    files
}

/// A person a row, by name, as RFC 4180 has it.
fn amounts(example: &Example) -> String {
    let row =
        |(person, cents): &(u8, u32)| format!("{},{cents}\r\n", example.words.person(*person));
    let rows: String = example.amounts.iter().map(row).collect();
    format!("person,cents\r\n{rows}")
}

/// What each number is called.
fn names(words: &Words) -> String {
    let mut text = String::new();
    let mut name = |sort: &str, number: u8, name: &str| {
        let _ = writeln!(text, "{sort} {number} {name}");
    };
    words.persons.iter().for_each(|(number, word)| name("person", *number, word));
    words.facts.iter().for_each(|(number, word)| name("fact", *number, word));
    words.citations.iter().for_each(|(number, word, _)| name("citation", *number, word));
    words.rules.iter().for_each(|(sort, number, word)| name(sort, *number, word));
    words.actors.iter().for_each(|(number, word)| name("actor", *number, word));
    words.evidence.iter().for_each(|(number, word)| name("evidence", *number, word));
    text
}

fn readme(example: &Example, printed: &str) -> String {
    let Example { folder, title, story, outcome, words, .. } = example;
    let mut text = format!("# {title}\n\n{story}\n\n{outcome}\n\n```\n{printed}```\n\n");
    let _ = write!(
        text,
        "In sentences: `lukhveri explain examples/{folder}` (docs/GUIDE.md, section 12).\n\n"
    );
    if !example.amounts.is_empty() {
        let _ = write!(
            text,
            "The amounts of amounts.csv pooled by unit: `lukhveri pool examples/{folder}`.\n\n"
        );
    }
    text.push_str(&sheets(example));
    text.push_str("The rule book:\n\n");
    for (number, name, sentence) in words.citations {
        let _ = writeln!(text, "- citation {number}, {name}: {sentence}");
    }
    text.push_str("\n| number | stands for |\n|---|---|\n");
    for (sort, list) in words.by_sort() {
        for (number, word) in list {
            let _ = writeln!(text, "| {sort} {number} | {word} |");
        }
    }
    text
}

/// The files of the spreadsheet program, the first of which is the table that the plan was made of.
fn sheets(example: &Example) -> String {
    let Some(first) = example.sheets.first() else {
        return String::new();
    };
    let (folder, table) = (example.folder, first.file);
    let rows = example.sheets.iter().map(|sheet| format!("- {}: {}\n", sheet.file, sheet.origin));
    format!(
        "The plan out of the table: `lukhveri import examples/{folder}/{table} plan.bin`.\n\n{}\n",
        rows.collect::<String>()
    )
}

impl Words {
    fn by_sort(&self) -> [(&'static str, &'static [Word]); 4] {
        [
            ("person", self.persons),
            ("fact", self.facts),
            ("evidence", self.evidence),
            ("actor", self.actors),
        ]
    }
}
