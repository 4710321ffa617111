//! A folder of cases: its plan, its names, its amounts, and which of its files are cases.

use std::ffi::{OsStr, OsString};
use std::io;
use std::path::{Path, PathBuf};
use std::sync::Arc;

use lukhveri::Plan;
use lukhveri::amounts::Amounts;
use lukhveri::files;
use lukhveri::names::Names;

use crate::files::read_names;

/// No more file names than these are mentioned.
const MENTIONED: usize = 4;

/// A plan that holds for all folders.
#[derive(Clone)]
pub struct CommonPlan {
    pub path: PathBuf,
    pub bytes: Arc<Vec<u8>>,
}

/// What is the same for all folders.
#[derive(Clone)]
pub struct Common {
    /// A plan in place of their own.
    pub plan: Option<CommonPlan>,
    /// Whether amounts are pooled.
    pub amounts: bool,
}

/// What the cases of a folder share.
pub struct Folder {
    pub path: PathBuf,
    /// The plan's bytes, or why there are none.
    pub plan: Result<Arc<Vec<u8>>, String>,
    pub names: Names,
    /// The amounts that are pooled, or why there are none; nothing where none are asked for.
    pub amounts: Option<Result<Amounts, String>>,
}

/// What a folder holds.
#[derive(Default)]
pub struct Contents {
    /// By file name.
    pub cases: Vec<OsString>,
    /// Files and folders that are no cases, by name.
    others: Vec<OsString>,
    own_plan: bool,
}

/// Something to be said of a folder; whether it means that not all could be done.
pub struct Remark {
    pub text: String,
    pub failed: bool,
}

impl Remark {
    fn trouble(path: &Path, what: impl std::fmt::Display) -> Remark {
        Remark { text: format!("{}: {what}", path.display()), failed: true }
    }

    fn note(path: &Path, what: impl std::fmt::Display) -> Remark {
        Remark { text: format!("{}: {what}", path.display()), failed: false }
    }
}

fn is_bin(name: &OsStr) -> bool {
    Path::new(name).extension().is_some_and(|extension| extension == "bin")
}

impl Contents {
    /// Everything named *.bin is a case, but plan.bin, the plan for all folders, and amounts.bin.
    pub fn list(folder: &Path, common: &Common) -> io::Result<Contents> {
        let plan = common.plan.as_ref().and_then(|plan| plan.path.canonicalize().ok());
        let mut contents = Contents::default();
        for entry in folder.read_dir()? {
            let name = entry?.file_name();
            match name == "amounts.bin" || name == "amounts.csv" {
                false => contents.add(folder, name, plan.as_deref()),
                true if common.amounts => {}
                true => contents.others.push(name),
            }
        }
        contents.cases.sort();
        contents.others.sort();
        Ok(contents)
    }

    fn add(&mut self, folder: &Path, name: OsString, plan: Option<&Path>) {
        let is_plan = || folder.join(&name).canonicalize().is_ok_and(|path| Some(&*path) == plan);
        if name == "plan.bin" {
            self.own_plan = plan.is_none() || !is_plan();
        } else if is_bin(&name) {
            if plan.is_none() || !is_plan() {
                self.cases.push(name);
            }
        } else if name != "names.txt" {
            self.others.push(name);
        }
    }

    fn mentioned(&self) -> String {
        let first = self.others.iter().take(MENTIONED).map(|name| name.to_string_lossy());
        let first = first.collect::<Vec<_>>().join(", ");
        match self.others.len().saturating_sub(MENTIONED) {
            0 => first,
            more => format!("{first} and {more} more"),
        }
    }

    /// What there is in place of cases; a folder of folders is an easy slip.
    fn without_cases(&self, folder: &Path) -> String {
        let has = if self.others.is_empty() { "" } else { "; it has " };
        let holds_folder = self.others.iter().any(|name| folder.join(name).is_dir());
        let all = folder.join("*");
        let hint = if holds_folder { format!(": try {}", all.display()) } else { String::new() };
        format!("no cases in this folder{has}{}{hint}", self.mentioned())
    }

    /// What is to be said of the files.
    pub fn remarks(&self, folder: &Path, common: bool) -> Vec<Remark> {
        let mut remarks = Vec::new();
        if self.cases.is_empty() {
            return vec![Remark::trouble(folder, self.without_cases(folder))];
        }
        if common && self.own_plan {
            remarks.push(Remark::note(folder, "its plan.bin is not used, as --plan is given"));
        }
        if !self.others.is_empty() {
            let what = format!("not taken for cases: {}", self.mentioned());
            remarks.push(Remark::note(folder, what));
        }
        remarks
    }
}

impl Folder {
    /// Plan, names and amounts of a folder with so many cases, with what is to be said of them.
    pub fn open(path: &Path, common: &Common, cases: usize) -> (Folder, Vec<Remark>) {
        let mut remarks = Vec::new();
        let own = path.join("plan.bin");
        let plan = match &common.plan {
            Some(plan) => Ok(plan.bytes.clone()),
            None => files::read_plan(&own).map(Arc::new),
        };
        let plan = plan.map_err(|fault| {
            remarks.push(Remark::trouble(&own, &fault.fault));
            format!("plan.bin: {}", fault.fault)
        });
        let names = named(path, plan.as_deref().ok(), &mut remarks);
        let amounts = common.amounts.then(|| amounts(path, cases, &mut remarks));
        (Folder { path: path.to_path_buf(), plan, names, amounts }, remarks)
    }
}

/// The amounts of a folder, or what a row says in their place, which is said of the folder, too.
fn amounts(folder: &Path, cases: usize, remarks: &mut Vec<Remark>) -> Result<Amounts, String> {
    let why = match files::read_amounts(folder) {
        Ok(Amounts::Bytes(_)) if cases > 1 => format!(
            "amounts.bin says of no amount whose it is, and there are {cases} cases; write amounts.csv, or give each case a folder"
        ),
        Ok(amounts) => return Ok(amounts),
        Err(fault) => match fault.path.strip_prefix(folder) {
            Ok(file) if !file.as_os_str().is_empty() => {
                format!("{}: {}", file.display(), fault.fault)
            }
            _ => fault.fault.to_string(),
        },
    };
    remarks.push(Remark::trouble(folder, &why));
    Err(why)
}

/// The names of a folder; none where names.txt has a fault, which is said.
fn named(folder: &Path, plan: Option<&Vec<u8>>, remarks: &mut Vec<Remark>) -> Names {
    let path = folder.join("names.txt");
    match read_names(folder) {
        Err(fault) => {
            remarks.push(Remark::trouble(&path, format!("{}; no names are used", fault.fault)));
            Names::unused()
        }
        Ok(names) => {
            let plan = plan.and_then(|bytes| Plan::read(bytes).ok());
            let odd = plan.map(|plan| names.warnings(&plan, None)).unwrap_or_default();
            let odd = odd.iter().map(|what| Remark::note(&path, format!("warning: {what}")));
            remarks.extend(odd);
            names
        }
    }
}
