//! make ROOT: writes the examples and the pictures into the repository there.

use std::fs;
use std::path::Path;
use std::process::ExitCode;

fn write(root: &Path) -> Result<usize, String> {
    let files = examples::files::files()?;
    for (path, bytes) in &files {
        let path = root.join(path);
        let at = |error| format!("{}: {error}", path.display());
        path.parent().map_or(Ok(()), fs::create_dir_all).map_err(at)?;
        fs::write(&path, bytes).map_err(at)?;
    }
    Ok(files.len())
}

fn main() -> ExitCode {
    let Some(root) = std::env::args_os().nth(1) else {
        eprintln!("make ROOT");
        return ExitCode::from(2);
    };
    match write(Path::new(&root)) {
        Ok(count) => {
            println!("{count} files");
            ExitCode::SUCCESS
        }
        Err(error) => {
            eprintln!("{error}");
            ExitCode::FAILURE
        }
    }
}
