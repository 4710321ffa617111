//! Goes from folder to folder: what is to be said of each, and its cases in order.

use std::io::{self, ErrorKind};
use std::path::{Path, PathBuf};
use std::sync::Arc;
use std::sync::mpsc::{Receiver, Sender, SyncSender, sync_channel};

use crate::batch::folder::{Common, Contents, Folder, Remark};
use crate::batch::names_of_folders;
use crate::batch::rows::{Rows, Style};
use crate::batch::workers::Job;
use crate::outcome::plainly;

/// What is printed next.
pub enum Item {
    /// A folder begins.
    Folder,
    Remark(Remark),
    /// The rows of a case, when a worker has them.
    Rows(Receiver<Rows>),
}

/// The way to the printer and to the workers. What the printer has not taken bounds what the workers have before them.
pub struct Source {
    pub items: SyncSender<Item>,
    pub jobs: Sender<Job>,
    pub common: Common,
    pub style: Style,
}

/// Why the files of a folder cannot be listed.
fn no_folder(error: &io::Error) -> String {
    match error.kind() {
        ErrorKind::NotFound => "there is no such folder".to_string(),
        ErrorKind::NotADirectory => "this is a file; a folder of cases is wanted".to_string(),
        _ => format!("it cannot be read: {}", plainly(error)),
    }
}

/// The printer or the workers are gone.
pub struct Gone;

impl Source {
    /// All folders in order, until there are no more or nobody listens.
    pub fn run(&self, words: Vec<PathBuf>) {
        for folder in names_of_folders::all(words) {
            let done = match folder {
                Ok(folder) => self.folder(&folder),
                Err(error) => self.remark(Remark {
                    text: format!("standard input: {}", plainly(&error)),
                    failed: true,
                }),
            };
            if done.is_err() {
                return;
            }
        }
    }

    fn remark(&self, remark: Remark) -> Result<(), Gone> {
        self.items.send(Item::Remark(remark)).map_err(|_| Gone)
    }

    fn folder(&self, path: &Path) -> Result<(), Gone> {
        let contents = match Contents::list(path, &self.common) {
            Ok(contents) => contents,
            Err(error) => {
                let text = format!("{}: {}", path.display(), no_folder(&error));
                return self.remark(Remark { text, failed: true });
            }
        };
        let remarks = contents.remarks(path, self.common.plan.is_some());
        remarks.into_iter().try_for_each(|remark| self.remark(remark))?;
        if contents.cases.is_empty() {
            return Ok(());
        }
        self.items.send(Item::Folder).map_err(|_| Gone)?;
        let (folder, remarks) = Folder::open(path, &self.common, contents.cases.len());
        remarks.into_iter().try_for_each(|remark| self.remark(remark))?;
        let folder = Arc::new(folder);
        contents.cases.into_iter().try_for_each(|file| {
            let (reply, rows) = sync_channel(1);
            self.items.send(Item::Rows(rows)).map_err(|_| Gone)?;
            let job = Job { folder: folder.clone(), file, style: self.style, reply };
            self.jobs.send(job).map_err(|_| Gone)
        })
    }
}
