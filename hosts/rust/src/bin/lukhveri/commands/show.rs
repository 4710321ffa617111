//! show FOLDER WORLD: one world, for trainers.

use std::path::Path;

use lukhveri::names::sentence;
use lukhveri::near::{Variable, View, values};
use lukhveri::words::{self, Things};
use lukhveri::{Answer, CaseRecords, Line, Plan, Refusal};

use crate::arguments::Arguments;
use crate::files::Inputs;
use crate::json::Json;
use crate::lines;
use crate::outcome::{Outcome, Trouble};
use crate::output::{print, print_sentences};
use crate::refused::Refused;

/// A world: the values that make it, and what comes about in it.
struct World<'a> {
    number: u64,
    inputs: &'a Inputs,
    plan: &'a Plan,
    values: Vec<(Variable, bool)>,
    shown: &'a Answer,
}

impl World<'_> {
    fn things(&self) -> Things<'_> {
        Things { plan: self.plan, names: &self.inputs.names }
    }

    fn value(&self, (variable, value): &(Variable, bool)) -> String {
        match (*variable, value) {
            (Variable::Fact(fact), true) => format!("{}: yes", self.things().fact(fact)),
            (Variable::Fact(fact), false) => format!("{}: no", self.things().fact(fact)),
            (Variable::Decision(place), true) => {
                format!(
                    "{}: yes; if the edge holds, the cut overrides it",
                    self.things().unresolved(place)
                )
            }
            (Variable::Decision(place), false) => {
                format!(
                    "{}: no; if the edge holds, it blocks the cut",
                    self.things().unresolved(place)
                )
            }
        }
    }

    /// What the world shows of a person.
    fn person(&self, line: &Line) -> String {
        let names = &self.inputs.names;
        let fate = words::fate(line.person, &View::of(line), names);
        sentence(&format!("{}: {fate}.", names.person(line.person)))
    }

    fn events(&self) -> impl Iterator<Item = String> {
        let clauses = self.shown.events.iter();
        let clauses = clauses.map(|event| words::event(self.plan, &self.inputs.names, event));
        clauses.map(|clause| sentence(&format!("{clause}.")))
    }

    fn text(&self) -> String {
        let (values, lines, events) = (
            self.values.iter().map(|value| sentence(&self.value(value))),
            self.shown.lines.iter().map(|line| self.person(line)),
            self.events(),
        );
        let heading = match self.shown.worlds {
            1 => "World 0, the only one.".to_string(),
            count => format!("World {} of {count}, counted from 0.", self.number),
        };
        [
            heading + "\n",
            part("What makes it", values, "nothing is open"),
            part("What everyone is in it", lines, "nobody is on the roster"),
            part("What happens in it", events, "nothing"),
        ]
        .concat()
    }

    fn json(&self) -> String {
        let values = self.values.iter().map(|(variable, value)| {
            let (kind, number) = match variable {
                Variable::Fact(number) => ("fact", *number),
                Variable::Decision(place) => ("decision", *place),
            };
            Json::object([
                ("kind", kind.into()),
                ("number", number.into()),
                ("name", self.inputs.names.find(kind, number).into()),
                ("value", (*value).into()),
            ])
        });
        let events = self.shown.events.iter().zip(self.events()).map(|(event, words)| {
            let kind = event.bytes().first().copied();
            Json::object([("kind", kind.into()), ("words", words.into())])
        });
        let lines = self.shown.lines.iter().map(|line| lines::json(line, &self.inputs.names));
        Json::object([
            ("world", self.number.into()),
            ("worlds", self.shown.worlds.into()),
            ("values", Json::list(values)),
            ("lines", Json::list(lines)),
            ("events", Json::list(events)),
        ])
        .line()
    }
}

/// A heading, and its rows below it.
fn part(heading: &str, rows: impl Iterator<Item = String>, none: &str) -> String {
    let rows: String = rows.map(|row| format!("  {row}\n")).collect();
    match rows.is_empty() {
        true => format!("\n{heading}: {none}.\n"),
        false => format!("\n{heading}:\n{rows}"),
    }
}

/// The plan and what comes about in the world.
fn shown(inputs: &Inputs, number: u64) -> Result<(Plan, Answer), Refusal> {
    let plan = Plan::read(&inputs.plan)?;
    let shown = lukhveri::show(&inputs.plan, &inputs.case, number)?;
    Ok((plan, shown))
}

pub fn run(arguments: &Arguments) -> Result<Outcome, Trouble> {
    let (folder, word) = arguments.two("a folder", "the number of a world")?;
    let text = word.to_string_lossy();
    let wrong = |_| arguments.wrong_use(format!("'{text}' is no number of a world: 0, 1 ..."));
    let number: u64 = text.parse().map_err(wrong)?;
    let inputs = Inputs::read(Path::new(folder))?;
    let as_json = arguments.has("--json");
    match shown(&inputs, number) {
        Err(refusal) => Refused::of(&refusal, &inputs).tell_in(&inputs, as_json),
        Ok((plan, shown)) => {
            let case = CaseRecords::read(&inputs.case).unwrap_or_default();
            let values = values(&plan, &case, number).unwrap_or_default();
            let world = World { number, inputs: &inputs, plan: &plan, values, shown: &shown };
            match as_json {
                true => print(&world.json())?,
                false => print_sentences(&world.text())?,
            }
            Ok(Outcome::Done)
        }
    }
}
