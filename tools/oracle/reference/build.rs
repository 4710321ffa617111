//! The three files must be the ones that were given, byte for byte.

#[allow(dead_code)]
#[path = "src/digest.rs"]
mod digest;

const FILES: [(&str, &str); 3] = [
    (
        "unit_derivation/types.rs",
        "fe6173f37b7c4c3d4e025f5c44858d14beaaa31e2f4d8123028db39f026a8fbc",
    ),
    (
        "unit_derivation/compile.rs",
        "831a99b0b000e11ccb1d20fd5bd200a664806c7643dfde42d42e9910fbfba63b",
    ),
    (
        "unit_derivation/evaluate.rs",
        "5dc8cd244a12ecb9500ab9bfe6a3287064ad5de07c3e468bb13f2784c8e28d73",
    ),
];

fn main() {
    println!("cargo::rerun-if-changed=build.rs");
    println!("cargo::rerun-if-changed=src/digest.rs");
    for (path, checksum) in FILES {
        println!("cargo::rerun-if-changed={path}");
        let bytes = std::fs::read(path).unwrap_or_else(|error| panic!("{path}: {error}"));
        let found = digest::hex(&digest::sha256(&bytes));
        assert_eq!(found, checksum, "{path} is not the file that was given");
    }
}
