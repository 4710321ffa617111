//! How a command ends.

use std::io;
use std::path::Path;
use std::process::ExitCode;

pub use lukhveri::files::plainly;

use crate::output::complain;

/// What became of what was asked.
#[derive(Clone, Copy, Debug, PartialEq, Eq)]
pub enum Outcome {
    Done,
    /// The refusal is the result; it has been printed.
    Refused,
    /// Something could not be done, and it has been said; the rest was.
    InPart,
}

impl Outcome {
    pub fn status(self) -> ExitCode {
        match self {
            Outcome::Done => ExitCode::SUCCESS,
            Outcome::Refused => ExitCode::from(1),
            Outcome::InPart => ExitCode::from(2),
        }
    }
}

/// Why nothing could be done.
#[derive(Debug)]
pub enum Trouble {
    /// One line for the standard error.
    Said(String),
    /// A line for each fault of a file.
    Faults(Vec<String>),
    /// The standard output cannot be written.
    Output(io::Error),
}

impl Trouble {
    /// Wrong words on the command line; the help of the command helps.
    pub fn wrong_use(command: Option<&str>, what: String) -> Trouble {
        Trouble::Said(match command {
            None => format!("{what} (lukhveri --help helps)"),
            Some(name) => format!("{name}: {what} (lukhveri {name} --help helps)"),
        })
    }

    pub fn of_file(path: &Path, what: impl std::fmt::Display) -> Trouble {
        Trouble::Said(format!("{}: {what}", path.display()))
    }

    /// Says it. A reader who has gone away is not told.
    pub fn tell(&self) -> ExitCode {
        match self {
            Trouble::Said(what) => complain(what),
            Trouble::Faults(all) => all.iter().for_each(|what| complain(what)),
            Trouble::Output(error) if error.kind() == io::ErrorKind::BrokenPipe => {}
            Trouble::Output(error) => {
                complain(&format!("standard output: {}", plainly(error)));
            }
        }
        ExitCode::from(2)
    }
}
