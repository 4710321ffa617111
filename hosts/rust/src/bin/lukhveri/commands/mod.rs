//! The commands, one row each: later ones are added here.

mod check;
mod circle;
mod explain;
mod import;
mod list;
mod pool;
mod show;

use crate::arguments::Arguments;
use crate::batch;
use crate::help;
use crate::outcome::{Outcome, Trouble};

/// A command: its name, what it says of itself, and the options that it takes.
pub struct Command {
    pub name: &'static str,
    pub help: &'static str,
    /// Options without a value.
    pub flags: &'static [&'static str],
    /// Options with a value.
    pub valued: &'static [&'static str],
    pub run: fn(&Arguments) -> Result<Outcome, Trouble>,
}

impl std::fmt::Debug for Command {
    fn fmt(&self, to: &mut std::fmt::Formatter) -> std::fmt::Result {
        write!(to, "{}", self.name)
    }
}

pub const COMMANDS: [Command; 8] = [
    Command { name: "check", help: help::CHECK, flags: &["--json"], valued: &[], run: check::run },
    Command {
        name: "import",
        help: help::IMPORT,
        flags: &["--check", "--json", "--line-ends"],
        valued: &[],
        run: import::run,
    },
    Command { name: "list", help: help::LIST, flags: &["--json"], valued: &[], run: list::run },
    Command {
        name: "explain",
        help: help::EXPLAIN,
        flags: &["--json", "--officer"],
        valued: &["--person"],
        run: explain::run,
    },
    Command { name: "show", help: help::SHOW, flags: &["--json"], valued: &[], run: show::run },
    Command {
        name: "circle",
        help: help::CIRCLE,
        flags: &["--json"],
        valued: &[],
        run: circle::run,
    },
    Command { name: "pool", help: help::POOL, flags: &["--json"], valued: &[], run: pool::run },
    Command {
        name: "batch",
        help: help::BATCH,
        flags: &["--amounts", "--json", "--rows"],
        valued: &["--plan"],
        run: batch::run,
    },
];
