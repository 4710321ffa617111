//! Which folders are asked for: those of the command line, and those that the standard input names.

use std::ffi::OsString;
use std::io::{self, BufRead};
use std::os::unix::ffi::OsStringExt;
use std::path::{Path, PathBuf};

/// Whether a word stands for the standard input.
pub fn is_input(word: &Path) -> bool {
    word.as_os_str() == "-"
}

/// The words in order, `-` replaced by the lines of the standard input, each as it comes.
pub fn all(words: Vec<PathBuf>) -> impl Iterator<Item = io::Result<PathBuf>> {
    words.into_iter().flat_map(|word| -> Box<dyn Iterator<Item = io::Result<PathBuf>>> {
        match is_input(&word) {
            true => Box::new(lines(io::stdin().lock())),
            false => Box::new(std::iter::once(Ok(word))),
        }
    })
}

/// Empty lines name nothing; a name may hold any byte but a line feed, and a carriage return before that belongs to the line's end. What cannot be read ends them: a folder in place of a list would fail for
/// ever.
fn lines(input: impl BufRead) -> impl Iterator<Item = io::Result<PathBuf>> {
    let mut lines = Some(input.split(b'\n'));
    let read = std::iter::from_fn(move || {
        let line = lines.as_mut()?.next()?;
        if line.is_err() {
            lines = None;
        }
        Some(line)
    });
    let names = read.map(|line| line.map(without_return));
    let filled = names.filter(|line| line.as_ref().map_or(true, |line| !line.is_empty()));
    filled.map(|line| line.map(|bytes| PathBuf::from(OsString::from_vec(bytes))))
}

fn without_return(mut line: Vec<u8>) -> Vec<u8> {
    if line.last() == Some(&b'\r') {
        line.pop();
    }
    line
}

#[cfg(test)]
mod tests {
    use super::*;

    #[test]
    fn one_name_to_a_line() {
        let input: &[u8] = b"a\n\nb c\r\n\r\n\xff";
        let named: Vec<PathBuf> = lines(input).map(|line| line.expect("a line")).collect();
        let last = PathBuf::from(OsString::from_vec(vec![0xff]));
        assert_eq!(named, [PathBuf::from("a"), PathBuf::from("b c"), last]);
    }

    #[test]
    fn what_cannot_be_read_is_said_once() {
        let folder = std::fs::File::open(".").expect("a folder");
        let said: Vec<_> = lines(io::BufReader::new(folder)).take(2).collect();
        assert!(matches!(said.as_slice(), [Err(_)]));
    }
}
