//! A file that is written whole or not at all: beside its place first, and then moved there.

use std::fs::{self, File, Permissions};
use std::io::{self, Write};
use std::path::{Path, PathBuf};
use std::process;

use crate::outcome::{Trouble, plainly};

/// The permissions of the file whose place is to be taken; none where there is no file. Or why nothing is written there.
fn there(path: &Path) -> Result<Option<Permissions>, String> {
    let about = match path.metadata() {
        Ok(about) => about,
        Err(error) if error.kind() == io::ErrorKind::NotFound => {
            return missing(path).map(|()| None);
        }
        Err(error) => return Err(unwritten(&error)),
    };
    if about.is_dir() {
        Err("this is a folder, and a file is wanted to be written".to_string())
    } else if !about.is_file() {
        Err("this is a device, a pipe or a socket, not a file".to_string())
    } else if about.permissions().readonly() {
        Err("it cannot be written: the file is read-only".to_string())
    } else {
        Ok(Some(about.permissions()))
    }
}

/// Why nothing is written where there is no file.
fn missing(path: &Path) -> Result<(), String> {
    let folder = path.parent().filter(|folder| !folder.as_os_str().is_empty());
    match folder {
        _ if path.symlink_metadata().is_ok() => {
            Err("this is a link that leads nowhere".to_string())
        }
        Some(folder) if !folder.exists() => {
            Err(format!("there is no such folder: {}", folder.display()))
        }
        _ => Ok(()),
    }
}

fn unwritten(error: &io::Error) -> String {
    format!("it cannot be written: {}", plainly(error))
}

/// A new file in the folder of the other: only from there it can be moved to its place at once. One that an interrupted run left is passed by.
fn beside(path: &Path) -> io::Result<(PathBuf, File)> {
    const TURNS: u32 = 100;
    let name = |turn: u32| format!(".lukhveri.{}.{turn}.part", process::id());
    for turn in 0..TURNS {
        let part = path.with_file_name(name(turn));
        match File::options().write(true).create_new(true).open(&part) {
            Err(error) if error.kind() == io::ErrorKind::AlreadyExists => {}
            made => return made.map(|file| (part, file)),
        }
    }
    let first = name(0);
    Err(io::Error::other(format!("{first} and others stand beside it; take them away")))
}

fn fill(file: &mut File, bytes: &[u8], permissions: Option<Permissions>) -> io::Result<()> {
    file.write_all(bytes)?;
    permissions.map_or(Ok(()), |permissions| file.set_permissions(permissions))?;
    file.sync_all()
}

fn put(target: &Path, bytes: &[u8], permissions: Option<Permissions>) -> io::Result<()> {
    let (part, mut file) = beside(target)?;
    let moved = fill(&mut file, bytes, permissions).and_then(|()| fs::rename(&part, target));
    if moved.is_err() {
        let _ = fs::remove_file(&part);
    }
    moved
}

/// Whether a file stood there before, whose place the new one has taken. A link is followed.
pub fn save(path: &Path, bytes: &[u8]) -> Result<bool, Trouble> {
    let permissions = there(path).map_err(|what| Trouble::of_file(path, what))?;
    let replaced = permissions.is_some();
    let target = path.canonicalize().unwrap_or_else(|_| path.to_path_buf());
    let saved = put(&target, bytes, permissions);
    saved.map(|()| replaced).map_err(|error| Trouble::of_file(path, unwritten(&error)))
}

#[cfg(test)]
mod tests {
    use super::*;

    /// What an interrupted run left beside a file is in nobody's way, and stays; only a hundred of them are.
    #[test]
    fn parts_that_were_left() {
        let folder = std::env::temp_dir().join(format!("lukhveri-saving-{}", process::id()));
        fs::create_dir_all(&folder).expect("a folder");
        let part = |turn: u32| folder.join(format!(".lukhveri.{}.{turn}.part", process::id()));
        let plan = folder.join("plan.bin");
        fs::write(part(0), b"old").expect("a part");
        assert!(matches!(save(&plan, b"new"), Ok(false)));
        assert_eq!(fs::read(&plan).expect("a plan"), b"new");
        assert_eq!(fs::read(part(0)).expect("a part"), b"old");
        (1..100).for_each(|turn| fs::write(part(turn), b"").expect("a part"));
        match save(&plan, b"newer") {
            Err(Trouble::Said(what)) => assert!(what.contains(".0.part and others"), "{what}"),
            other => panic!("{other:?}"),
        }
        assert_eq!(fs::read(&plan).expect("a plan"), b"new");
        fs::remove_dir_all(&folder).expect("the folder");
    }
}
