//! Reads plans, cases, names, amounts and tables of rules from files, no further than they can be long.

use std::fmt;
use std::fs::File;
use std::io::{self, ErrorKind, Read};
use std::path::{Path, PathBuf};

use crate::amounts::Amounts;
use crate::limits;
use crate::names::{NameFault, Names};

/// Records of a plan that are not refused one by one take at most 10,564 bytes, and the record behind them is judged by 162 more: what follows
/// changes neither an answer nor what is said of a refusal.
pub const PLAN_LENGTH: usize = 10_564 + 162;

/// The same of a case: 3,792 bytes and 37.
pub const CASE_LENGTH: usize = 3_792 + 37;

/// Bytes that a file of names may have.
pub const NAMES_LENGTH: usize = 1 << 20;

/// One amount more than there can be persons: what follows changes nothing.
pub const AMOUNTS_LENGTH: usize = 4 * (limits::PERSONS + 1);

/// Bytes that a table of amounts may have.
pub const TABLE_LENGTH: usize = 1 << 20;

/// Bytes of a table of rules that are read. A header that is not refused takes at most 34, a rule 30, and there are at most 96 rules: the first row
/// at fault of a longer table begins among the first 2,914, and it is at fault by what it has before this end, or as longer than 30. What follows
/// changes neither that the table is refused nor the row that is named.
pub const RULES_LENGTH: usize = 1 << 20;

/// Why a file was not read.
#[derive(Clone, Debug, PartialEq, Eq)]
pub enum Fault {
    Missing,
    Folder,
    /// A device, a pipe or a socket.
    NotAFile,
    /// What the operating system says.
    Unreadable(String),
    TooLong {
        most: usize,
    },
    /// This line is no UTF-8 text.
    NoText {
        line: usize,
    },
    Name(NameFault),
    /// A folder without amounts.
    NoAmounts,
    /// A folder with amounts.bin and amounts.csv.
    TwoAmounts,
}

/// A file that was not read, and why.
#[derive(Clone, Debug, PartialEq, Eq)]
pub struct FileFault {
    pub path: PathBuf,
    pub fault: Fault,
}

impl fmt::Display for Fault {
    fn fmt(&self, to: &mut fmt::Formatter) -> fmt::Result {
        match self {
            Fault::Missing => write!(to, "there is no such file"),
            Fault::Folder => write!(to, "this is a folder, not a file"),
            Fault::NotAFile => write!(to, "this is a device, a pipe or a socket, not a file"),
            Fault::Unreadable(why) => write!(to, "it cannot be read: {why}"),
            Fault::TooLong { most } => write!(to, "it is longer than {most} bytes"),
            Fault::NoText { line } => {
                write!(to, "line {line} is no UTF-8 text; save the file as UTF-8")
            }
            Fault::Name(fault) => write!(to, "{fault}"),
            Fault::NoAmounts => write!(
                to,
                "this folder has no amounts; write amounts.csv, with person,cents in its first row and then a row for each person of the roster, or amounts.bin"
            ),
            Fault::TwoAmounts => write!(
                to,
                "this folder has amounts.bin and amounts.csv, and nothing says which of them counts; take one away"
            ),
        }
    }
}

impl fmt::Display for FileFault {
    fn fmt(&self, to: &mut fmt::Formatter) -> fmt::Result {
        write!(to, "{}: {}", self.path.display(), self.fault)
    }
}

impl std::error::Error for FileFault {}

/// The bytes of a plan, as many as matter.
pub fn read_plan(path: &Path) -> Result<Vec<u8>, FileFault> {
    read(path, PLAN_LENGTH)
}

/// The bytes of a case, as many as matter.
pub fn read_case(path: &Path) -> Result<Vec<u8>, FileFault> {
    read(path, CASE_LENGTH)
}

/// The names of a file.
pub fn read_names(path: &Path) -> Result<Names, FileFault> {
    let text = read_text(path, NAMES_LENGTH)?;
    let fault = |error| FileFault { path: path.to_path_buf(), fault: Fault::Name(error) };
    Names::read(&text).map_err(fault)
}

/// The bytes of a table of rules, as many as matter. [`Plan::from_table`](crate::Plan::from_table) makes a plan of them.
pub fn read_rules(path: &Path) -> Result<Vec<u8>, FileFault> {
    read(path, RULES_LENGTH)
}

/// The same from the standard input, or from what else is open.
pub fn read_rules_from(input: impl Read) -> Result<Vec<u8>, Fault> {
    let mut bytes = Vec::new();
    let read = input.take(RULES_LENGTH as u64).read_to_end(&mut bytes);
    read.map(|_| bytes).map_err(|error| Fault::Unreadable(plainly(&error)))
}

/// An error of the system in words, without its number.
pub fn plainly(error: &io::Error) -> String {
    let text = error.to_string();
    text.split(" (os error").next().unwrap_or(&text).to_string()
}

/// A file that is no longer than so many bytes.
fn read_whole(path: &Path, most: usize) -> Result<Vec<u8>, FileFault> {
    let bytes = read(path, most.saturating_add(1))?;
    match bytes.len() > most {
        true => Err(FileFault { path: path.to_path_buf(), fault: Fault::TooLong { most } }),
        false => Ok(bytes),
    }
}

/// A text that is no longer than so many bytes.
fn read_text(path: &Path, most: usize) -> Result<String, FileFault> {
    let fault = |fault| FileFault { path: path.to_path_buf(), fault };
    let bytes = read_whole(path, most)?;
    String::from_utf8(bytes).map_err(|error| {
        let valid = error.utf8_error().valid_up_to();
        let before = error.as_bytes().get(..valid).unwrap_or(&[]);
        let line = 1 + before.iter().filter(|byte| **byte == b'\n').count();
        fault(Fault::NoText { line })
    })
}

/// The amounts of a folder: amounts.bin or amounts.csv. Where both are there, nobody says which counts.
pub fn read_amounts(folder: &Path) -> Result<Amounts, FileFault> {
    let fault = |fault| FileFault { path: folder.to_path_buf(), fault };
    let [bytes, table] = ["amounts.bin", "amounts.csv"].map(|name| folder.join(name));
    match [&bytes, &table].map(|path| path.symlink_metadata().is_ok()) {
        [true, true] => Err(fault(Fault::TwoAmounts)),
        [false, false] => Err(fault(Fault::NoAmounts)),
        [true, false] => read(&bytes, AMOUNTS_LENGTH).map(Amounts::Bytes),
        [false, true] => read_text(&table, TABLE_LENGTH).map(Amounts::Table),
    }
}

/// The names of a file; no names if there is no such file.
pub fn read_names_if_any(path: &Path) -> Result<Names, FileFault> {
    match read_names(path) {
        Err(FileFault { fault: Fault::Missing, .. }) => Ok(Names::default()),
        read => read,
    }
}

/// The first bytes of a file, at most so many. Whether it is a file is asked before it is opened, since opening a pipe may wait for ever.
pub fn read(path: &Path, most: usize) -> Result<Vec<u8>, FileFault> {
    let fault = |fault| FileFault { path: path.to_path_buf(), fault };
    let system = |error: io::Error| match error.kind() {
        ErrorKind::NotFound => fault(Fault::Missing),
        _ => fault(Fault::Unreadable(plainly(&error))),
    };
    let kind = path.metadata().map_err(system)?.file_type();
    if kind.is_dir() {
        return Err(fault(Fault::Folder));
    }
    if !kind.is_file() {
        return Err(fault(Fault::NotAFile));
    }
    let mut bytes = Vec::new();
    let file = File::open(path).map_err(system)?;
    file.take(most as u64).read_to_end(&mut bytes).map_err(system)?;
    Ok(bytes)
}
