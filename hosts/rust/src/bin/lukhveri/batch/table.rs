//! Prints the table: rows to the standard output, remarks, progress and counts to the standard error.

use std::io::{self, BufWriter, Write};
use std::path::PathBuf;
use std::sync::mpsc::{Receiver, TryRecvError, channel, sync_channel};
use std::thread;

use crate::batch::folder::Common;
use crate::batch::pools;
use crate::batch::progress::Progress;
use crate::batch::rows::{self, Rows, Style};
use crate::batch::source::{Item, Source};
use crate::batch::workers;
use crate::outcome::{Outcome, Trouble, plainly};
use crate::output::complain;

/// Cases that may wait for the printer.
const WINDOW: usize = 256;

struct Table<Output: Write> {
    output: Output,
    progress: Progress,
    /// Something could not be done, and it was said.
    failed: bool,
    /// It was said that the table of this folder has faults.
    told: bool,
}

impl<Output: Write> Table<Output> {
    /// The next item. Rows are handed on before it is waited for, so that they come as the folders come.
    fn next(&mut self, items: &Receiver<Item>) -> io::Result<Option<Item>> {
        match items.try_recv() {
            Ok(item) => Ok(Some(item)),
            Err(TryRecvError::Disconnected) => Ok(None),
            Err(TryRecvError::Empty) => {
                self.output.flush()?;
                Ok(items.recv().ok())
            }
        }
    }

    fn take(&mut self, item: Item) -> io::Result<()> {
        match item {
            Item::Folder => {
                self.told = false;
                Ok(())
            }
            Item::Remark(remark) => {
                self.say(&remark.text);
                self.failed |= remark.failed;
                Ok(())
            }
            Item::Rows(rows) => {
                let lost = |_| io::Error::other("a worker has ended before its time");
                let Rows { text, fate, faulty_table } = rows.recv().map_err(lost)?;
                self.progress.add(fate);
                if let Some(what) = faulty_table.filter(|_| !self.told) {
                    self.told = true;
                    self.say(&what);
                }
                self.output.write_all(&text)
            }
        }
    }

    fn say(&mut self, what: &str) {
        self.progress.clear();
        complain(what);
    }

    fn run(&mut self, items: &Receiver<Item>) -> io::Result<()> {
        while let Some(item) = self.next(items)? {
            self.take(item)?;
        }
        self.output.flush()
    }

    fn outcome(&self) -> Outcome {
        match (self.failed || self.progress.some_unreadable(), self.progress.some_refused()) {
            (true, _) => Outcome::InPart,
            (false, true) => Outcome::Refused,
            (false, false) => Outcome::Done,
        }
    }
}

/// The table of all cases of all folders.
pub fn print_table(
    words: Vec<PathBuf>,
    common: Common,
    style: Style,
    heading: bool,
) -> Result<Outcome, Trouble> {
    let cannot = |error: io::Error| Trouble::Said(format!("batch: {}", plainly(&error)));
    let ((items, taken), (jobs, work)) = (sync_channel(WINDOW), channel());
    let progress = Progress::new(&words, &common);
    let columns = if common.amounts { &pools::COLUMNS[..] } else { &rows::COLUMNS[..] };
    workers::start(work).map_err(cannot)?;
    let source = Source { items, jobs, common, style };
    thread::Builder::new().spawn(move || source.run(words)).map_err(cannot)?;
    let output = BufWriter::with_capacity(1 << 16, io::stdout().lock());
    let mut table = Table { output, progress, failed: false, told: false };
    if heading {
        table.output.write_all(&style.heading(columns)).map_err(Trouble::Output)?;
    }
    let printed = table.run(&taken);
    table.progress.clear();
    printed.map_err(Trouble::Output)?;
    table.progress.end();
    Ok(table.outcome())
}
