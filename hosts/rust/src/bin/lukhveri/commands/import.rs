//! import TABLE PLAN: a plan out of a table of rules.

use std::ffi::OsStr;
use std::io;
use std::path::Path;

use lukhveri::draft::{self, Note, RowFault};
use lukhveri::files::{self, Fault, FileFault};
use lukhveri::names::sentence;
use lukhveri::{Plan, Refusal};

use crate::arguments::Arguments;
use crate::json::Json;
use crate::outcome::{Outcome, Trouble};
use crate::output::{complain, print, print_sentences};
use crate::saving::save;

/// A table, and where it comes from.
struct Table {
    /// As a message names it.
    name: String,
    bytes: Vec<u8>,
}

impl Table {
    fn read(word: &OsStr) -> Result<Table, Trouble> {
        if word == "-" {
            let name = "standard input".to_string();
            let bytes = files::read_rules_from(io::stdin().lock());
            let bytes = bytes.map_err(|fault| Trouble::Said(format!("{name}: {fault}")))?;
            return Ok(Table { name, bytes });
        }
        let path = Path::new(word);
        let bytes = files::read_rules(path).map_err(unread)?;
        Ok(Table { name: path.display().to_string(), bytes })
    }

    /// Files in the wrong order are an easy slip.
    fn is_plan(&self) -> bool {
        lukhveri::check(&self.bytes).is_ok()
    }
}

/// What a pipe has can be read all the same.
fn unread(fault: FileFault) -> Trouble {
    match fault.fault {
        Fault::NotAFile => {
            Trouble::Said(format!("{fault}; write - to have the standard input read"))
        }
        _ => Trouble::Said(fault.to_string()),
    }
}

/// What becomes of the plan.
enum Fate<'a> {
    Checked,
    Written(&'a Path),
    Replaced(&'a Path),
}

/// How many rules of each kind a plan has.
struct Counts {
    base: usize,
    combination: usize,
    statuses: usize,
}

impl Counts {
    fn of(plan: &Plan) -> Counts {
        let records = plan.records();
        let combination = records.edges.iter().filter(|edge| edge.combination).count();
        let base = records.edges.len() - combination;
        Counts { base, combination, statuses: records.statuses.len() }
    }

    fn words(&self) -> String {
        let counted = |count: usize, one: &str, more: &str| match count {
            1 => format!("1 {one}"),
            _ => format!("{count} {more}"),
        };
        [
            counted(self.base, "Base edge", "Base edges"),
            counted(self.combination, "Combination edge", "Combination edges"),
            counted(self.statuses, "status", "statuses"),
        ]
        .join(", ")
    }
}

/// Names of files may hold line ends.
fn in_one_line(path: &Path) -> String {
    path.display().to_string().replace(char::is_control, "?")
}

fn sentences(plan: &Plan, fate: &Fate, notes: &[Note]) -> String {
    let (counts, length) = (Counts::of(plan).words(), plan.bytes().len());
    let made = format!("{counts}, {length} bytes; the check passes it");
    let said = match fate {
        Fate::Checked => format!("The table is accepted. Its plan: {made}. Nothing is written.\n"),
        Fate::Written(path) => format!("{} is written: {made}.\n", in_one_line(path)),
        Fate::Replaced(path) => format!("{} is replaced: {made}.\n", in_one_line(path)),
    };
    let persons = plan.records().rule_persons();
    let named = match persons.is_empty() {
        true => String::new(),
        false => format!("Persons whom its rules name: {persons}.\n"),
    };
    let notes = notes.iter().map(|note| format!("Note: {note}.\n"));
    said + &named + &notes.collect::<String>()
}

fn json(plan: &Plan, fate: &Fate, notes: &[Note]) -> String {
    let counts = Counts::of(plan);
    let (path, replaced) = match fate {
        Fate::Checked => (None, false),
        Fate::Written(path) => (Some(path.display().to_string()), false),
        Fate::Replaced(path) => (Some(path.display().to_string()), true),
    };
    let notes = notes.iter().map(|note| {
        Json::object([
            ("row", note.row().map(|row| row as u64).into()),
            ("words", note.to_string().into()),
        ])
    });
    Json::object([
        ("accepted", true.into()),
        ("plan", path.into()),
        ("replaced", replaced.into()),
        ("bytes", plan.bytes().len().into()),
        ("base_edges", counts.base.into()),
        ("combination_edges", counts.combination.into()),
        ("statuses", counts.statuses.into()),
        ("persons", Json::list(plan.records().rule_persons())),
        ("notes", Json::list(notes)),
    ])
    .line()
}

/// What the refusal is in words, and as JSON.
struct Refused<'a> {
    table: &'a Table,
    refusal: Refusal,
    fault: Option<RowFault>,
    /// Where the plan would have gone.
    target: Option<&'a Path>,
}

const LIKE_A_PLAN: &str = "this reads like a plan; a table is wanted";

impl Refused<'_> {
    fn words(&self) -> String {
        match &self.fault {
            Some(fault) => format!("refused {}: {fault}", self.refusal.number()),
            None => self.refusal.to_string(),
        }
    }

    fn remedy(&self) -> &str {
        self.fault.as_ref().map_or(self.refusal.remedy(), RowFault::remedy)
    }

    fn json(&self) -> Json {
        let fault = self.fault.as_ref();
        let line = fault.and_then(|fault| fault.line).map(|line| line as u64);
        let field = fault.and_then(|fault| fault.field).map(|field| field.name());
        Json::object([
            ("number", self.refusal.number().into()),
            ("record", self.refusal.record().into()),
            ("file", "table".into()),
            ("words", self.words().into()),
            ("finding", fault.and_then(RowFault::finding).into()),
            ("remedy", self.remedy().into()),
            ("line", line.into()),
            ("field", field.into()),
            ("hint", self.hint().into()),
        ])
    }

    /// What may help besides. A table that was saved with Unix line ends can be read on demand.
    fn hint(&self) -> Option<&'static str> {
        let bare = self.fault.as_ref().is_some_and(RowFault::has_bare_line_feed);
        match self.table.is_plan() {
            true => Some(LIKE_A_PLAN),
            false => bare.then_some("with --line-ends, LF is read as CR LF"),
        }
    }

    fn sentences(&self) -> String {
        let mut said = format!("{}.\n", sentence(&self.words()));
        said += &format!("What would mend it: {}.\n", self.remedy());
        // what reads like a plan is told on the standard error, with its name
        if let Some(hint) = self.hint().filter(|_| !self.table.is_plan()) {
            said += &format!("{}.\n", sentence(hint));
        }
        if let Some(path) = self.target.filter(|path| path.exists()) {
            said += &format!("{} stays as it was.\n", in_one_line(path));
        }
        said
    }

    fn tell(&self, as_json: bool) -> Result<Outcome, Trouble> {
        match as_json {
            true => print(&Json::object([("refusal", self.json())]).line())?,
            false => print_sentences(&self.sentences())?,
        }
        let (name, number, row) = (&self.table.name, self.refusal.number(), self.refusal.record());
        complain(&format!("{name}: refused {number}, row {row}"));
        if self.table.is_plan() {
            complain(&format!("{name}: {LIKE_A_PLAN}"));
        }
        Ok(Outcome::Refused)
    }
}

/// Whether two words name one file.
fn is_same_file(one: &Path, other: &Path) -> bool {
    one.canonicalize().is_ok_and(|one| other.canonicalize().is_ok_and(|other| one == other))
}

/// Where the plan goes; nowhere if the table is only checked.
fn target(arguments: &Arguments) -> Result<(&OsStr, Option<&Path>), Trouble> {
    if arguments.has("--check") {
        return Ok((arguments.one("a table")?, None));
    }
    let (table, plan) = arguments.two("a table", "a file for the plan")?;
    let plan = Path::new(plan);
    if plan == Path::new("-") {
        return Err(arguments.wrong_use("the plan wants the name of a file".to_string()));
    }
    match table != "-" && is_same_file(Path::new(table), plan) {
        true => Err(Trouble::of_file(plan, "this is the table; name another file for the plan")),
        false => Ok((table, Some(plan))),
    }
}

/// A file that is no plan is somebody's work: a slip of the hand should not cost it.
fn write(path: &Path, plan: &Plan) -> Result<bool, Trouble> {
    let before = match path.is_file() {
        true => files::read_plan(path).map_err(|fault| Trouble::Said(fault.to_string()))?,
        false => Vec::new(),
    };
    if !before.is_empty() && lukhveri::check(&before).is_err() {
        let what = "this file is no plan, and it is not replaced; name another, or take it away";
        return Err(Trouble::of_file(path, what));
    }
    save(path, plan.bytes())
}

pub fn run(arguments: &Arguments) -> Result<Outcome, Trouble> {
    let (word, target) = target(arguments)?;
    let as_json = arguments.has("--json");
    let mut table = Table::read(word)?;
    if arguments.has("--line-ends") {
        table.bytes = draft::with_returns(&table.bytes);
    }
    let plan = match Plan::from_table(&table.bytes) {
        Err(refusal) => {
            let fault = refusal.row_fault(&table.bytes);
            return Refused { table: &table, refusal, fault, target }.tell(as_json);
        }
        Ok(plan) => plan,
    };
    let fate = match target {
        None => Fate::Checked,
        Some(path) => match write(path, &plan)? {
            false => Fate::Written(path),
            true => Fate::Replaced(path),
        },
    };
    let notes = draft::notes(&table.bytes);
    match as_json {
        true => print(&json(&plan, &fate, &notes))?,
        false => print_sentences(&sentences(&plan, &fate, &notes))?,
    }
    Ok(Outcome::Done)
}
