//! Links the static library that the package names, which tools/port/run makes first.

use std::env;
use std::path::Path;

fn main() {
    let library = env::var("CARGO_MANIFEST_LINKS").expect("the package names a library");
    let mut above = Path::new(env!("CARGO_MANIFEST_DIR")).ancestors();
    let root = above.find(|folder| folder.join("crates.txt").exists());
    let folder = root.expect("the repository").join("target/staticlib");
    println!("cargo:rustc-link-search=native={}", folder.display());
    println!("cargo:rustc-link-lib=static={library}");
    let archive = folder.join(format!("lib{library}.a"));
    println!("cargo:rerun-if-changed={}", archive.display());
    if library == "exports" {
        // The program that counts copies takes the place of what copies.
        for name in ["memcpy", "memmove", "memset"] {
            println!("cargo:rustc-link-arg-bin=copies=-Wl,--wrap={name}");
        }
    }
}
