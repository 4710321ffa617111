//! What is installed: the crate's version, the kit that proved the library, and the library's sum.

/// The sum is that of the file that was linked, so that `sha256sum` of an installed one can be compared with it.
pub fn text() -> String {
    format!(
        "lukhveri {}\nkit: {}\nlibrary: libexports.a, sha256 {}\n",
        env!("CARGO_PKG_VERSION"),
        env!("LUKHVERI_KIT"),
        env!("LUKHVERI_LIBRARY")
    )
}
