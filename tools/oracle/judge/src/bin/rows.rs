//! rows: the tables of docs/DIFFERENCES.md, one row for each input.

use judge::differences::{Claim, ENTRIES};

fn main() {
    for entry in ENTRIES {
        let bytes = match entry.case {
            "" => format!("`{}`", entry.plan),
            case => format!("`{}` and `{case}`", entry.plan),
        };
        let claim = match entry.claim {
            Claim::OnlyHere(words) => format!(" {words} |"),
            Claim::OnlyRustPlan(number, record) | Claim::OnlyRustCase(number, record) => {
                format!(" {number}, record {record} |")
            }
            _ => String::new(),
        };
        println!("| {} | {} | {bytes} |{claim}", entry.id, entry.what);
    }
}
