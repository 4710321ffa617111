//! The man page, made from the help texts.

use crate::commands::COMMANDS;
use crate::help;

/// What troff would take for its own is written so that it prints as it stands.
fn escaped(line: &str) -> String {
    let text = line.replace('\\', "\\e").replace('-', "\\-");
    match text.chars().next() {
        Some('.' | '\'') => format!("\\&{text}"),
        _ => text,
    }
}

/// The usage behind "usage: ", and the text below it.
fn parted(help: &str) -> (&str, &str) {
    let (first, rest) = help.split_once('\n').unwrap_or((help, ""));
    (first.strip_prefix("usage: ").unwrap_or(first), rest.trim_start_matches('\n'))
}

/// The label and the text of a row that has two blanks between them; the text of one that goes on; the label of one that has no text yet.
fn row(line: &str) -> (Option<&str>, Option<&str>) {
    let said = line.trim_start();
    match (line.starts_with(' '), said.split_once("  ")) {
        (true, _) => (None, Some(said)),
        (false, Some((label, text))) => (Some(label), Some(text.trim_start())),
        (false, None) => (Some(said), None),
    }
}

/// A list of labels and texts.
fn labelled(lines: &[&str]) -> String {
    let rows = lines.iter().map(|line| {
        let (label, text) = row(line);
        let label = label.map(|label| format!(".TP\n{}\n", escaped(label)));
        let text = text.map(|text| escaped(text) + "\n");
        label.unwrap_or_default() + &text.unwrap_or_default()
    });
    rows.collect()
}

/// Lines that stay as they are.
fn as_they_are(lines: &[&str]) -> String {
    let rows: String = lines.iter().map(|line| escaped(line) + "\n").collect();
    format!(".PP\n.RS 4\n.nf\n{rows}.fi\n.RE\n")
}

/// Lines that begin with four blanks are a list or stay as they are; others flow.
fn paragraph(lines: &[&str]) -> String {
    let inner: Option<Vec<&str>> = lines.iter().map(|line| line.strip_prefix("    ")).collect();
    let has_text = |line: &&str| matches!(row(line), (Some(_), Some(_)));
    match inner {
        Some(inner) if inner.iter().any(has_text) => labelled(&inner),
        Some(inner) => as_they_are(&inner),
        None => {
            let rows: String = lines.iter().map(|line| escaped(line) + "\n").collect();
            format!(".PP\n{rows}")
        }
    }
}

/// Paragraphs are parted by empty lines.
fn body(text: &str) -> String {
    let paragraphs = text.trim_end().split("\n\n");
    paragraphs.map(|part| paragraph(&part.lines().collect::<Vec<_>>())).collect()
}

fn synopsis() -> String {
    let usages = COMMANDS.iter().map(|command| parted(command.help).0);
    let rows = usages.map(|usage| format!(".br\n{}\n", escaped(usage)));
    rows.collect()
}

fn commands() -> String {
    let parts = COMMANDS.iter().map(|command| {
        let (_, text) = parted(command.help);
        format!(".SS lukhveri {}\n{}", command.name, body(text))
    });
    parts.collect()
}

/// The whole page.
pub fn page() -> String {
    let version = env!("CARGO_PKG_VERSION");
    let (_, text) = parted(help::MAIN);
    [
        format!(".TH LUKHVERI 1 \"\" \"lukhveri {version}\" \"User Commands\"\n.nh\n.ad l\n"),
        ".SH NAME\nlukhveri \\- finds the units of a roster\n.SH SYNOPSIS\n".to_string(),
        synopsis(),
        format!(".SH DESCRIPTION\n{}", body(text)),
        format!(".SH COMMANDS\n{}", commands()),
    ]
    .concat()
}

#[cfg(test)]
mod tests {
    use super::*;

    #[test]
    fn what_troff_takes_for_its_own_is_escaped() {
        assert_eq!(escaped(".x --a \\n"), "\\&.x \\-\\-a \\en");
        assert_eq!(paragraph(&["    a", "      b"]), ".PP\n.RS 4\n.nf\na\n  b\n.fi\n.RE\n");
        let list = ["    -a, --b    does it", "               well", "    c or d", "           so"];
        assert_eq!(paragraph(&list), ".TP\n\\-a, \\-\\-b\ndoes it\nwell\n.TP\nc or d\nso\n");
        assert_eq!(
            body("one\ntwo\n\n    three\n"),
            ".PP\none\ntwo\n.PP\n.RS 4\n.nf\nthree\n.fi\n.RE\n"
        );
    }

    #[test]
    fn every_command_has_its_part() {
        let page = page();
        for command in COMMANDS {
            assert!(page.contains(&format!(".SS lukhveri {}\n", command.name)));
            assert!(command.help.starts_with(&format!("usage: lukhveri {}", command.name)));
        }
        assert!(page.is_ascii() && !page.contains("\n\n"));
    }
}
