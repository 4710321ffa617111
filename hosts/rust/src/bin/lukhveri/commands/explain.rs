//! explain FOLDER: each person's line in sentences.

use std::path::Path;

use lukhveri::near::NearError;
use lukhveri::words::{self, Paragraph};
use lukhveri::{Answer, Plan};

use crate::arguments::Arguments;
use crate::files::Inputs;
use crate::json::Json;
use crate::lines;
use crate::outcome::{Outcome, Trouble};
use crate::output::{print, print_sentences};
use crate::person;
use crate::refused::Refused;

/// The heading of what belongs to all.
const OFFICER: &str =
    "For the officer: what follows belongs to all persons of the case and is not for families.";

/// The first sentence at the margin, what belongs to it indented.
fn paragraph(said: &Paragraph) -> String {
    said.sentences.join("\n  ") + "\n"
}

fn text(paragraphs: &[Paragraph], officer: Option<Vec<String>>) -> String {
    let all: Vec<String> = paragraphs.iter().map(paragraph).collect();
    let officer = officer.map(|said| format!("\n{OFFICER}\n  {}\n", said.join("\n  ")));
    all.join("\n") + &officer.unwrap_or_default()
}

fn json(paragraphs: &[Paragraph], inputs: &Inputs, officer: Option<Vec<String>>) -> String {
    let persons = paragraphs.iter().map(|said| {
        lines::json(&said.line, &inputs.names)
            .with("called", said.name.as_str())
            .with("sentences", Json::list(said.sentences.iter().map(String::as_str)))
            .with("possible", Json::list(said.possible.iter().map(String::as_str)))
            .with("waits_for", Json::list(said.waits_for.iter().map(String::as_str)))
            .with("moved_by", Json::list(said.moved_by.iter().map(String::as_str)))
            .with("idle", Json::list(said.idle.iter().map(String::as_str)))
            .with("ask_first", said.ask_first.as_deref())
    });
    let object = Json::object([("persons", Json::list(persons))]);
    match officer {
        Some(said) => object.with("officer", Json::list(said)).line(),
        None => object.line(),
    }
}

/// The paragraphs of all persons, or of one.
fn explained(inputs: &Inputs, person: Option<u8>) -> Result<Vec<Paragraph>, NearError> {
    let Inputs { plan, case, names, .. } = inputs;
    match person {
        None => words::explain(plan, case, names),
        Some(person) => Ok(vec![words::explain_person(plan, case, names, person)?]),
    }
}

/// What belongs to all; there is an answer where there are paragraphs.
fn officer(inputs: &Inputs) -> Option<Vec<String>> {
    let plan = Plan::read(&inputs.plan).ok()?;
    let answer: Answer = lukhveri::answer(&inputs.plan, &inputs.case).ok()?;
    Some(words::officer(&plan, &answer, &inputs.names))
}

pub fn run(arguments: &Arguments) -> Result<Outcome, Trouble> {
    let inputs = Inputs::read(Path::new(arguments.one("a folder")?))?;
    let asked = arguments.value("--person");
    let person = asked.map(|word| person::find(arguments, word, &inputs)).transpose()?;
    let as_json = arguments.has("--json");
    match explained(&inputs, person) {
        Err(NearError::Refused(refusal)) => {
            Refused::of(&refusal, &inputs).tell_in(&inputs, as_json)
        }
        Err(error) => Err(Trouble::of_file(&inputs.path("case.bin"), error)),
        Ok(paragraphs) => {
            let officer = arguments.has("--officer").then(|| officer(&inputs)).flatten();
            match as_json {
                true => print(&json(&paragraphs, &inputs, officer))?,
                false => print_sentences(&text(&paragraphs, officer))?,
            }
            Ok(Outcome::Done)
        }
    }
}
