//! An answer as the lister prints it.

use std::fmt::Write;

use lukhveri::{Answer, Refusal};

pub fn printed(answer: &Result<Answer, Refusal>) -> String {
    match answer {
        Err(refusal) => format!("refused {} {}\n", refusal.number(), refusal.record()),
        Ok(answer) => rows(answer),
    }
}

fn rows(answer: &Answer) -> String {
    let mut text = String::from("person kind role block\n");
    for line in &answer.lines {
        let (kind, role) = (line.kind.number(), line.role.number());
        let _ = writeln!(text, "{} {kind} {role} {}", line.person, line.block);
    }
    let _ = writeln!(text, "units {}", answer.households().len());
    text
}
