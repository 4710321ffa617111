//! Runs the program `lukhveri`.
#![allow(dead_code)]

pub mod json;

use std::ffi::OsStr;
use std::io::Write;
use std::path::{Path, PathBuf};
use std::process::{Command, Output, Stdio};

/// What the program printed, and its exit status.
#[derive(Debug, PartialEq, Eq)]
pub struct Said {
    pub out: String,
    pub err: String,
    pub status: Option<i32>,
}

impl Said {
    fn of(output: Output) -> Said {
        let text = |bytes: Vec<u8>| String::from_utf8(bytes).expect("text");
        let (out, err) = (text(output.stdout), text(output.stderr));
        Said { out, err, status: output.status.code() }
    }

    /// One line on the standard error, nothing on the standard output, status 2.
    pub fn is_trouble(&self, part: &str) {
        assert_eq!((self.out.as_str(), self.status), ("", Some(2)), "{self:?}");
        assert!(self.err.starts_with("lukhveri: ") && self.err.ends_with('\n'), "{self:?}");
        assert_eq!(self.err.lines().count(), 1, "{self:?}");
        assert!(self.err.contains(part), "{part} is not in {}", self.err);
    }
}

/// The program, called in the repository's root.
pub fn program() -> Command {
    let mut command = Command::new(env!("CARGO_BIN_EXE_lukhveri"));
    command.current_dir(root());
    command
}

pub fn root() -> PathBuf {
    Path::new(env!("CARGO_MANIFEST_DIR")).join("../..")
}

pub fn run<Word: AsRef<OsStr>>(words: &[Word]) -> Said {
    Said::of(program().args(words).output().expect("lukhveri runs"))
}

/// With a text on the standard input.
pub fn run_with<Word: AsRef<OsStr>>(words: &[Word], input: &[u8]) -> Said {
    let mut command = program();
    command.args(words);
    said_with(command, input)
}

/// What a command says with a text on its standard input.
pub fn said_with(mut command: Command, input: &[u8]) -> Said {
    command.stdin(Stdio::piped()).stdout(Stdio::piped()).stderr(Stdio::piped());
    let mut child = command.spawn().expect("lukhveri runs");
    let mut pipe = child.stdin.take().expect("a pipe");
    let input = input.to_vec();
    let writer = std::thread::spawn(move || {
        let _ = pipe.write_all(&input);
    });
    let output = child.wait_with_output().expect("lukhveri ends");
    writer.join().expect("the input was offered");
    Said::of(output)
}

/// A command on a folder.
pub fn on(command: &str, folder: &Path, words: &[&str]) -> Said {
    let mut all = vec![OsStr::new(command), folder.as_os_str()];
    all.extend(words.iter().map(OsStr::new));
    run(&all)
}

/// The examples of the repository.
pub const EXAMPLES: [&str; 8] =
    ["01", "allotments", "camp", "choir", "club", "kitchen", "nursery", "rowing"];

pub fn example(name: &str) -> PathBuf {
    Path::new("examples").join(name)
}

pub fn example_file(name: &str, file: &str) -> Vec<u8> {
    std::fs::read(root().join(example(name)).join(file)).expect("an example")
}

/// Bytes from their hexadecimal digits.
pub fn hex(digits: &str) -> Vec<u8> {
    let places = (0..digits.len()).step_by(2);
    places.map(|at| u8::from_str_radix(&digits[at..at + 2], 16).expect("digits")).collect()
}

/// Numbers that look random and are the same each time.
pub struct Random(pub u64);

impl Random {
    pub fn below(&mut self, bound: u64) -> u64 {
        self.0 ^= self.0 << 13;
        self.0 ^= self.0 >> 7;
        self.0 ^= self.0 << 17;
        self.0.wrapping_mul(0x2545_f491_4f6c_dd1d) % bound
    }
}
