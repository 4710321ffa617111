//! What goes to the standard output and to the standard error.

use std::io::{self, IsTerminal, Write};

use crate::outcome::Trouble;
use crate::wrap::wrapped;

/// Writes a whole text to the standard output.
pub fn print(text: &str) -> Result<(), Trouble> {
    let mut output = io::stdout().lock();
    output.write_all(text.as_bytes()).and_then(|()| output.flush()).map_err(Trouble::Output)
}

/// Writes sentences, one a line; where a terminal shows them, long ones end between words.
pub fn print_sentences(text: &str) -> Result<(), Trouble> {
    match io::stdout().is_terminal() {
        true => print(&wrapped(text)),
        false => print(text),
    }
}

/// One line of the standard error. What cannot be written there cannot be told anywhere.
pub fn complain(what: &str) {
    let _ = io::stderr().write_all(complaint(what).as_bytes());
}

/// Names of files and folders may hold line ends; what is said of them stays one line.
fn complaint(what: &str) -> String {
    let shown: String = what.chars().map(|c| if c.is_control() { '?' } else { c }).collect();
    format!("lukhveri: {shown}\n")
}

#[cfg(test)]
mod tests {
    use super::*;

    #[test]
    fn a_complaint_is_one_line() {
        assert_eq!(complaint("a\nb: \u{1b}[31m no"), "lukhveri: a?b: ?[31m no\n");
    }
}
