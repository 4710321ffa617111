//! Lines that a terminal would break within words end between words instead.

/// Columns of a terminal.
const COLUMNS: usize = 80;

/// What goes on in a next line is indented by two blanks more than its first.
fn wrapped_line(line: &str) -> String {
    let indent = line.chars().take_while(|letter| *letter == ' ').count();
    let (mut text, mut column) = (" ".repeat(indent), indent);
    for word in line.split_whitespace() {
        let length = word.chars().count();
        if column > indent && column + 1 + length > COLUMNS {
            text += &format!("\n{}", " ".repeat(indent + 2));
            column = indent + 2;
        } else if column > indent {
            text.push(' ');
            column += 1;
        }
        text += word;
        column += length;
    }
    text
}

/// Each line that is too long, in several.
pub fn wrapped(text: &str) -> String {
    let lines = text.lines().map(|line| match line.chars().count() > COLUMNS {
        true => wrapped_line(line) + "\n",
        false => format!("{line}\n"),
    });
    lines.collect()
}

#[cfg(test)]
mod tests {
    use super::*;

    #[test]
    fn long_lines_end_between_words() {
        let words = ["long"; 40].join(" ");
        let text = wrapped(&format!("short  line\n\n  {words}\n"));
        let lines: Vec<&str> = text.lines().collect();
        assert_eq!(lines[..2], ["short  line", ""]);
        assert!(lines.iter().all(|line| line.chars().count() <= 80));
        assert!(lines[2].starts_with("  long") && lines[3].starts_with("    long"));
        assert_eq!(lines[2..].join(" ").split_whitespace().count(), 40);
        let word = "x".repeat(100);
        assert_eq!(wrapped(&word), format!("{word}\n"));
    }
}
