//! Counts, and a bar where somebody watches.

use std::fmt;
use std::io::{self, IsTerminal, Write};
use std::path::PathBuf;
use std::time::{Duration, Instant};

use lukhveri::words::{self, counted};

use crate::batch::counts::Counts;
use crate::batch::folder::{Common, Contents};
use crate::batch::names_of_folders::is_input;
use crate::batch::rows::Fate;
use crate::output::complain;

/// How often the bar is drawn.
const PAUSE: Duration = Duration::from_millis(200);

/// Columns of the bar; with its numbers it stays below the 80 of a terminal.
const BAR: u64 = 24;

/// What has been done.
pub struct Progress {
    answered: u64,
    refused: u64,
    unreadable: u64,
    counts: Counts,
    start: Instant,
    /// When the bar was drawn last; none where nobody watches.
    drawn: Option<Instant>,
    /// How many cases there are, where that can be known before.
    all: Option<u64>,
    visible: bool,
}

/// The cases of all folders; none where folders come from the standard input.
fn count(words: &[PathBuf], common: &Common) -> Option<u64> {
    if words.iter().any(|word| is_input(word)) {
        return None;
    }
    let cases = |word: &PathBuf| Contents::list(word, common).map_or(0, |found| found.cases.len());
    Some(words.iter().map(|word| cases(word) as u64).sum())
}

impl Progress {
    pub fn new(words: &[PathBuf], common: &Common) -> Progress {
        let start = Instant::now();
        // Where rows go to the terminal, too, a bar would stand among them.
        let watched = io::stderr().is_terminal() && !io::stdout().is_terminal();
        let drawn = watched.then_some(start);
        // Nobody else needs the count, and folders are read for it.
        let all = drawn.and_then(|_| count(words, common));
        let (answered, refused, unreadable, counts) = (0, 0, 0, Counts::default());
        Progress { answered, refused, unreadable, counts, start, drawn, all, visible: false }
    }

    pub fn add(&mut self, fate: Fate) {
        match fate {
            Fate::Answered(counts) => {
                self.answered += 1;
                self.counts.add(counts);
            }
            Fate::Refused => self.refused += 1,
            Fate::Unreadable => self.unreadable += 1,
        }
        if self.drawn.is_some_and(|drawn| drawn.elapsed() >= PAUSE) {
            self.drawn = Some(Instant::now());
            self.visible = true;
            let _ = write!(io::stderr(), "\r{}\x1b[K", self.bar());
        }
    }

    pub fn some_refused(&self) -> bool {
        self.refused > 0
    }

    pub fn some_unreadable(&self) -> bool {
        self.unreadable > 0
    }

    fn done(&self) -> u64 {
        self.answered + self.refused + self.unreadable
    }

    fn rate(&self) -> f64 {
        self.done() as f64 / self.start.elapsed().as_secs_f64().max(1e-9)
    }

    /// Over and over in one line of the terminal.
    fn bar(&self) -> String {
        let (done, rate) = (self.done(), self.rate());
        let Some(all) = self.all.filter(|all| *all > 0) else {
            return format!("{done} cases, {rate:.0} a second");
        };
        let filled = (done.saturating_mul(BAR) / all).min(BAR);
        let bar: String = (0..BAR).map(|at| if at < filled { '#' } else { '.' }).collect();
        // The first cases wait until the folder is listed, and tell nothing of the others.
        if done.saturating_mul(100) < all {
            return format!("[{bar}] {done} of {all} cases");
        }
        let left = all.saturating_sub(done) as f64 / rate.max(1e-9);
        format!("[{bar}] {done} of {all} cases, {left:.0} s left")
    }

    /// Clears the line of the terminal.
    pub fn clear(&mut self) {
        if self.visible {
            self.visible = false;
            let _ = write!(io::stderr(), "\r\x1b[K");
        }
    }

    /// Says the counts.
    pub fn end(&self) {
        complain(&self.to_string());
    }
}

impl fmt::Display for Progress {
    fn fmt(&self, to: &mut fmt::Formatter) -> fmt::Result {
        let Counts { persons, units, households } = self.counts;
        let (cases, persons) = (counted(self.done(), "case"), counted(persons, "person"));
        write!(
            to,
            "{cases}: {} answered, {} refused, {} unreadable; {persons}; {}; {:.3} s, {:.0} cases a second",
            self.answered,
            self.refused,
            self.unreadable,
            words::units(units, households),
            self.start.elapsed().as_secs_f64(),
            self.rate()
        )
    }
}
