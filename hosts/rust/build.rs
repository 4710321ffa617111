//! Links the static library of the proved crates, and tells the program `lukhveri` which one it is.

use std::path::Path;
use std::process::Command;

/// The first line that a program prints; none where it is not there or fails.
fn first_line(program: &str, words: &[&Path]) -> Option<String> {
    let done = Command::new(program).args(words).output().ok().filter(|done| done.status.success());
    let text = String::from_utf8(done?.stdout).ok()?;
    text.lines().next().map(str::trim).filter(|line| !line.is_empty()).map(str::to_string)
}

/// What `lukhveri --version` says beside the crate's version.
fn identities(library: &Path) {
    let kit = first_line("rt", &[Path::new("version")]);
    let sum = first_line("sha256sum", &[library]);
    // A path with a backslash makes sha256sum put one before the sum.
    let sum = sum.as_deref().and_then(|line| line.split_whitespace().next());
    let sum = sum.map(|sum| sum.trim_start_matches('\\'));
    println!("cargo::rustc-env=LUKHVERI_KIT={}", kit.as_deref().unwrap_or("unknown"));
    println!("cargo::rustc-env=LUKHVERI_LIBRARY={}", sum.unwrap_or("unknown"));
    println!("cargo::rerun-if-env-changed=PATH");
}

fn main() {
    let root = Path::new(env!("CARGO_MANIFEST_DIR")).join("../..");
    let folder = root.join("target/staticlib");
    let library = folder.join("libexports.a");
    println!("cargo::rerun-if-changed={}", library.display());
    if !library.is_file() {
        println!(
            "cargo::error=target/staticlib/libexports.a is missing: run `tools/build exports` in the repository's root"
        );
        return;
    }
    identities(&library);
    println!("cargo::rustc-link-search=native={}", folder.display());
    println!("cargo::rustc-link-lib=static=exports");
}
