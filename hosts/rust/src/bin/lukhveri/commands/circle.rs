//! circle FOLDER P: whose answers can show in a person's line.

use std::path::Path;

use lukhveri::names::sentence;
use lukhveri::near::{Touching, touching};
use lukhveri::words::{self, Things};
use lukhveri::{CaseRecords, Persons, Plan};

use crate::arguments::Arguments;
use crate::files::Inputs;
use crate::json::Json;
use crate::outcome::{Outcome, Trouble};
use crate::output::{print, print_sentences};
use crate::person;
use crate::refused::Refused;

/// A person's circle, and the facts that touch it.
struct Circle<'a> {
    things: Things<'a>,
    person: u8,
    persons: Persons,
    roster: Persons,
    facts: Vec<Touching>,
}

impl Circle<'_> {
    fn why(&self, touching: &Touching) -> Vec<String> {
        words::touching(self.things.plan, self.things.names, touching)
    }

    fn text(&self) -> String {
        let names = self.things.names;
        let name = names.person(self.person);
        let within = match self.persons.count() {
            1 => format!("{name} alone"),
            _ => names.persons(self.persons),
        };
        let circle = sentence(&format!("the circle of {name}: {within}."));
        let off = self.persons.without(self.roster);
        let off = match off.is_empty() {
            true => String::new(),
            false => format!("Not on the roster: {}.\n", names.persons(off)),
        };
        format!("{circle}\n{off}\n{}", self.facts_text())
    }

    fn facts_text(&self) -> String {
        let rows = self.facts.iter().map(|touching| {
            let fact = sentence(&self.things.fact(touching.fact));
            format!("  {fact}: {}.\n", self.why(touching).join("; "))
        });
        let rows: String = rows.collect();
        match rows.is_empty() {
            true => "No fact touches this circle.\n".to_string(),
            false => format!("Facts that touch this circle:\n{rows}"),
        }
    }

    fn named(&self, number: u8) -> Json {
        let name = self.things.names.find("person", number).into();
        let on_roster = self.roster.holds(number).into();
        Json::object([("person", number.into()), ("name", name), ("on_roster", on_roster)])
    }

    fn json(&self) -> String {
        let facts = self.facts.iter().map(|touching| {
            Json::object([
                ("fact", touching.fact.into()),
                ("name", self.things.names.find("fact", touching.fact).into()),
                ("why", Json::list(self.why(touching))),
            ])
        });
        self.named(self.person)
            .with("circle", Json::list(self.persons.into_iter().map(|person| self.named(person))))
            .with("facts", Json::list(facts))
            .line()
    }
}

/// A plan or a case that cannot be read has no circles; a case that is refused for another reason has.
fn without_circle(inputs: &Inputs, person: u8, as_json: bool) -> Result<Outcome, Trouble> {
    match lukhveri::answer(&inputs.plan, &inputs.case) {
        Err(refusal) => Refused::of(&refusal, inputs).tell_in(inputs, as_json),
        Ok(_) => {
            let what = format!("there is no circle of person {person}");
            Err(Trouble::of_file(&inputs.path("case.bin"), what))
        }
    }
}

pub fn run(arguments: &Arguments) -> Result<Outcome, Trouble> {
    let (folder, word) = arguments.two("a folder", "a person")?;
    let inputs = Inputs::read(Path::new(folder))?;
    let person = person::find(arguments, word, &inputs)?;
    let as_json = arguments.has("--json");
    let Some(circle) = lukhveri::circle(&inputs.plan, &inputs.case, person) else {
        return without_circle(&inputs, person, as_json);
    };
    let plan = match Plan::read(&inputs.plan) {
        Err(refusal) => return Refused::of(&refusal, &inputs).tell_in(&inputs, as_json),
        Ok(plan) => plan,
    };
    let case = CaseRecords::read(&inputs.case).unwrap_or_default();
    let things = Things { plan: &plan, names: &inputs.names };
    let facts = touching(&plan, &case, circle);
    let circle = Circle { things, person, persons: circle, roster: case.roster, facts };
    match as_json {
        true => print(&circle.json())?,
        false => print_sentences(&circle.text())?,
    }
    Ok(Outcome::Done)
}
