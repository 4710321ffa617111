//! Files: a plan, and the plan, case, names and amounts of a folder.

use std::path::{Path, PathBuf};

use lukhveri::amounts::Amounts;
use lukhveri::files::{self, FileFault};
use lukhveri::names::Names;
use lukhveri::{CaseRecords, Plan};

use crate::outcome::Trouble;
use crate::output::complain;

fn trouble(fault: FileFault) -> Trouble {
    Trouble::Said(fault.to_string())
}

/// A plan that is named by itself.
pub fn read_plan(path: &Path) -> Result<Vec<u8>, Trouble> {
    if path.is_dir() {
        let inside = path.join("plan.bin");
        let what = format!("this is a folder; a plan is wanted, such as {}", inside.display());
        return Err(Trouble::of_file(path, what));
    }
    files::read_plan(path).map_err(trouble)
}

/// The names of a folder; no names where there is no names.txt.
pub fn read_names(folder: &Path) -> Result<Names, FileFault> {
    files::read_names_if_any(&folder.join("names.txt"))
}

/// The names beside a plan. They stand in words alone, so a fault in them is said and stops nothing.
pub fn names_beside(plan: &Path) -> Names {
    let folder = plan.parent().unwrap_or(Path::new(""));
    read_names(folder).unwrap_or_else(|fault| {
        complain(&format!("{fault}; no names are used"));
        Names::default()
    })
}

/// Says which names of the file are for what is not there.
pub fn tell_warnings(names: &Names, path: &Path, plan: &Plan, case: Option<&CaseRecords>) {
    let warnings = names.warnings(plan, case);
    let lines = warnings.iter().map(|warning| format!("{}: warning: {warning}", path.display()));
    lines.for_each(|line| complain(&line));
}

/// What a command on a folder reads.
pub struct Inputs {
    folder: PathBuf,
    pub plan: Vec<u8>,
    pub case: Vec<u8>,
    pub names: Names,
}

impl Inputs {
    pub fn read(folder: &Path) -> Result<Inputs, Trouble> {
        let inputs = Inputs::read_without_names(folder)?;
        let path = inputs.path("names.txt");
        let names = read_names(folder).map_err(trouble)?;
        if let Ok(plan) = Plan::read(&inputs.plan) {
            let case = CaseRecords::read(&inputs.case);
            tell_warnings(&names, &path, &plan, case.as_ref());
        }
        Ok(Inputs { names, ..inputs })
    }

    pub fn read_without_names(folder: &Path) -> Result<Inputs, Trouble> {
        if !folder.is_dir() && folder.exists() {
            let what = "this is a file; a folder with plan.bin and case.bin is wanted";
            return Err(Trouble::of_file(folder, what));
        }
        let plan = files::read_plan(&folder.join("plan.bin")).map_err(trouble)?;
        let case = files::read_case(&folder.join("case.bin")).map_err(trouble)?;
        Ok(Inputs { folder: folder.to_path_buf(), plan, case, names: Names::default() })
    }

    pub fn amounts(&self) -> Result<Amounts, Trouble> {
        files::read_amounts(&self.folder).map_err(trouble)
    }

    pub fn folder(&self) -> &Path {
        &self.folder
    }

    pub fn path(&self, name: &str) -> PathBuf {
        self.folder.join(name)
    }
}
