//! batch FOLDER...: a table over many cases.
//!
//! One thread goes from folder to folder, workers answer cases, and the caller's thread prints what they say in the order of the cases. No more
//! than a window of cases and the file names of one folder are held at a time.

mod counts;
mod csv;
mod folder;
mod names_of_folders;
mod pools;
mod progress;
mod rows;
mod source;
mod table;
mod workers;

use std::path::{Path, PathBuf};
use std::sync::Arc;

use lukhveri::names::Names;

use crate::arguments::Arguments;
use crate::files::read_plan;
use crate::outcome::{Outcome, Trouble};
use crate::refused::Refused;
use folder::{Common, CommonPlan};
use rows::Style;

/// The plan for all folders, if one is given; a refused one would refuse every case.
fn common_plan(path: &Path) -> Result<CommonPlan, Trouble> {
    let bytes = read_plan(path)?;
    Ok(CommonPlan { path: path.to_path_buf(), bytes: Arc::new(bytes) })
}

/// Whether the common plan is accepted; the refusal is said.
fn accepted(plan: &CommonPlan) -> bool {
    let Err(refusal) = lukhveri::check(&plan.bytes) else {
        return true;
    };
    let names = Names::default();
    Refused { refusal: &refusal, plan: &plan.bytes, case: &[], names: &names }
        .complain_of(&plan.path);
    false
}

pub fn run(arguments: &Arguments) -> Result<Outcome, Trouble> {
    if arguments.words().is_empty() {
        return Err(arguments.wrong_use("a folder is wanted".to_string()));
    }
    let plan = arguments.value("--plan").map(|path| common_plan(Path::new(path))).transpose()?;
    if plan.as_ref().is_some_and(|plan| !accepted(plan)) {
        return Ok(Outcome::Refused);
    }
    let style = if arguments.has("--json") { Style::Json } else { Style::Csv };
    let words: Vec<PathBuf> = arguments.words().iter().map(PathBuf::from).collect();
    let common = Common { plan, amounts: arguments.has("--amounts") };
    table::print_table(words, common, style, !arguments.has("--rows"))
}
