//! check PLAN: accepted or refused, and what is odd.

use std::path::Path;

use lukhveri::names::Names;
use lukhveri::{CaseRecords, Fact, Persons, Plan};

use crate::arguments::Arguments;
use crate::files::{names_beside, read_plan, tell_warnings};
use crate::json::Json;
use crate::outcome::{Outcome, Trouble};
use crate::output::{complain, print, print_sentences};
use crate::refused::Refused;

/// What is in a plan: how many of each thing.
struct Counts {
    booleans: usize,
    relations: usize,
    nodes: usize,
    base: usize,
    combination: usize,
    cuts: usize,
    unresolved: usize,
    attachments: usize,
    bars: usize,
    statuses: usize,
    persons: Persons,
}

impl Counts {
    fn of(plan: &Plan) -> Counts {
        let records = plan.records();
        let booleans = records.facts.iter().filter(|fact| **fact == Fact::Boolean).count();
        let combination = records.edges.iter().filter(|edge| edge.combination).count();
        Counts {
            booleans,
            relations: records.facts.len() - booleans,
            nodes: records.nodes.len(),
            base: records.edges.len() - combination,
            combination,
            cuts: records.cuts.len(),
            unresolved: plan.decisions().len(),
            attachments: records.attachments.len(),
            bars: records.bars.len(),
            statuses: records.statuses.len(),
            persons: records.rule_persons(),
        }
    }

    fn json(&self) -> Json {
        Json::object([
            ("boolean_facts", self.booleans.into()),
            ("relation_facts", self.relations.into()),
            ("nodes", self.nodes.into()),
            ("base_edges", self.base.into()),
            ("combination_edges", self.combination.into()),
            ("cuts", self.cuts.into()),
            ("unresolved_decisions", self.unresolved.into()),
            ("attachments", self.attachments.into()),
            ("bars", self.bars.into()),
            ("statuses", self.statuses.into()),
            ("persons", Json::list(self.persons)),
        ])
    }

    fn words(&self) -> String {
        let facts = counted(self.booleans + self.relations, "fact", "facts");
        let edges = counted(self.base + self.combination, "edge", "edges");
        let open = counted(self.unresolved, "unresolved decision", "unresolved decisions");
        let rows = [
            format!("{facts}: {} boolean, {} of relations", self.booleans, self.relations),
            counted(self.nodes, "node", "nodes"),
            format!("{edges}: {} Base, {} Combination", self.base, self.combination),
            format!("{}, {open}", counted(self.cuts, "cut", "cuts")),
            counted(self.attachments, "attachment", "attachments"),
            counted(self.bars, "bar", "bars"),
            counted(self.statuses, "status", "statuses"),
            format!("persons whom rules name: {}", self.persons),
        ];
        rows.map(|row| format!("    {row}\n")).concat()
    }
}

fn counted(count: usize, one: &str, more: &str) -> String {
    format!("{count} {}", if count == 1 { one } else { more })
}

/// A short name for programs, and words.
type Warning = (&'static str, String);

fn warnings(plan: &Plan, names: &Names) -> Vec<Warning> {
    plan.warnings().iter().map(|warning| (warning.code(), warning.in_words(names))).collect()
}

fn sentences(counts: &Counts, warnings: &[Warning]) -> String {
    let rows: String = warnings.iter().map(|(_, words)| format!("    {words}\n")).collect();
    let heading = match warnings {
        [] => "No warnings.\n".to_string(),
        _ => format!("{}:\n", counted(warnings.len(), "warning", "warnings")),
    };
    format!("The plan is accepted. It has\n{}{heading}{rows}", counts.words())
}

fn json(counts: &Counts, warnings: &[Warning]) -> String {
    let warnings = warnings.iter().map(|(code, words)| {
        Json::object([("code", (*code).into()), ("words", words.as_str().into())])
    });
    let accepted = Json::object([("accepted", true.into()), ("counts", counts.json())]);
    accepted.with("warnings", Json::list(warnings)).line()
}

/// A case in the place of a plan is an easy slip.
fn hint(path: &Path, bytes: &[u8]) {
    if CaseRecords::read(bytes).is_some_and(|case| !case.roster.is_empty()) {
        complain(&format!("{}: this reads like a case; a plan is wanted", path.display()));
    }
}

pub fn run(arguments: &Arguments) -> Result<Outcome, Trouble> {
    let path = Path::new(arguments.one("a plan")?);
    let (bytes, names) = (read_plan(path)?, names_beside(path));
    let as_json = arguments.has("--json");
    match Plan::read(&bytes) {
        Err(refusal) => {
            let refused = Refused { refusal: &refusal, plan: &bytes, case: &[], names: &names };
            let outcome = refused.tell(path, as_json)?;
            hint(path, &bytes);
            Ok(outcome)
        }
        Ok(plan) => {
            tell_warnings(&names, &path.with_file_name("names.txt"), &plan, None);
            let (counts, warnings) = (Counts::of(&plan), warnings(&plan, &names));
            match as_json {
                true => print(&json(&counts, &warnings))?,
                false => print_sentences(&sentences(&counts, &warnings))?,
            }
            Ok(Outcome::Done)
        }
    }
}
