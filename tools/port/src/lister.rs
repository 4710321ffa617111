//! The lister as a program, run in a temporary folder that lasts as long as it does.

use std::path::PathBuf;
use std::process::{Command, Output, Stdio};
use std::{env, fs, io, process};

/// Where `tools/build lister` puts it.
const PROGRAM: &str = concat!(env!("CARGO_MANIFEST_DIR"), "/../../target/bin/lister");

/// Bytes that it reads of a file.
pub const BUFFER: usize = 16_384;

/// The lines and events that its buffers hold.
pub const MOST: (usize, usize) = (64, 4096);

pub struct Lister {
    folder: PathBuf,
}

impl Lister {
    pub fn new() -> io::Result<Lister> {
        let folder = env::temp_dir().join(format!("listed-{}", process::id()));
        fs::create_dir(&folder)?;
        Ok(Lister { folder })
    }

    /// What it prints of these files, which go again afterwards: a file system may wait for its disk where a file is written over.
    pub fn run(&self, plan: &[u8], case: &[u8]) -> io::Result<Output> {
        let files = ["plan.bin", "case.bin"].map(|name| self.folder.join(name));
        for (file, bytes) in files.iter().zip([plan, case]) {
            fs::write(file, bytes)?;
        }
        let printed = Command::new(PROGRAM)
            .current_dir(&self.folder)
            .stdin(Stdio::null())
            .output();
        files.iter().try_for_each(fs::remove_file)?;
        printed
    }
}

impl Drop for Lister {
    fn drop(&mut self) {
        let _ = fs::remove_dir_all(&self.folder);
    }
}
