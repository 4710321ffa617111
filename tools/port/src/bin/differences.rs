//! differences: every input of docs/DIFFERENCES.md on the proved code: the refusal that the document names, and the model's answer in buffers of
//! all lengths. What the Rust says of them is tested in tools/oracle.

use inputs::random::Random;
use judge::differences::{Claim, ENTRIES};
use port::alike::Asked;

/// The refusal that document 01 asks for; 0 for none.
fn refusal(claim: Claim) -> u64 {
    match claim {
        Claim::OnlyRustPlan(number, _) | Claim::OnlyRustCase(number, _) => u64::from(number),
        _ => 0,
    }
}

fn main() {
    let random = &mut Random::new(1);
    let mut differ = 0;
    for entry in ENTRIES {
        let (plan, case) = (entry.plan_bytes(), entry.case_bytes());
        let asked = Asked::answer(&plan, &case);
        let as_said = u64::from(asked.expected().refusal) == refusal(entry.claim);
        if !as_said || asked.compare_all(random).is_err() {
            differ += 1;
            println!("{} differs: {}", entry.id, entry.what);
        }
    }
    println!("{} entries, {differ} differ", ENTRIES.len());
    if differ > 0 {
        std::process::exit(1);
    }
}
