//! Workers on all processors: each takes case after case.

use std::ffi::OsString;
use std::io;
use std::num::NonZero;
use std::sync::mpsc::{Receiver, SyncSender};
use std::sync::{Arc, Mutex};
use std::thread;

use lukhveri::{Buffers, STACK};

use crate::batch::folder::Folder;
use crate::batch::rows::{CaseFile, Rows, Style};

/// A case to be answered, and where its rows go.
pub struct Job {
    pub folder: Arc<Folder>,
    pub file: OsString,
    pub style: Style,
    pub reply: SyncSender<Rows>,
}

/// Starts a worker for each processor; fewer do the same work, none cannot.
pub fn start(jobs: Receiver<Job>) -> io::Result<()> {
    let jobs = Arc::new(Mutex::new(jobs));
    let count = thread::available_parallelism().map_or(1, NonZero::get);
    for number in 0..count {
        let jobs = jobs.clone();
        let worker = thread::Builder::new().stack_size(STACK + (1 << 20));
        match worker.spawn(move || work(&jobs)) {
            Err(error) if number == 0 => return Err(error),
            Err(_) => break,
            Ok(_) => {}
        }
    }
    Ok(())
}

/// The next case; none when there are no more.
fn next(jobs: &Mutex<Receiver<Job>>) -> Option<Job> {
    jobs.lock().ok()?.recv().ok()
}

fn work(jobs: &Mutex<Receiver<Job>>) {
    let mut buffers = Buffers::new();
    while let Some(job) = next(jobs) {
        let case = CaseFile { folder: &job.folder, file: &job.file, style: job.style };
        // Where the printer is gone, so is the program soon.
        let _ = job.reply.send(case.answer(&mut buffers));
    }
}
