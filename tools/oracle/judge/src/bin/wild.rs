//! wild N SEED: damaged inputs that document 01 still accepts, on the Rust.
//! Compares where the Rust accepts them too, and lists by kind what only one
//! of the two accepts, each with the shortest plan found.

use std::collections::BTreeMap;

use inputs::calls;
use inputs::random::Random;
use inputs::vectors::to_hex;
use judge::compare::{Covered, Difference, Verdict, compare, compare_unchecked};
use judge::rust::{NoAnswer, Oracle};
use model::records::{Case, Plan};

/// The words of a refusal without the ids in it.
fn class(text: &str) -> String {
    let parts: Vec<&str> = text.split('`').collect();
    parts.iter().step_by(2).copied().collect::<Vec<_>>().join("`")
}

#[derive(Default)]
struct Found {
    kinds: BTreeMap<String, (u64, Vec<u8>)>,
}

impl Found {
    fn add(&mut self, kind: String, plan: &[u8]) {
        let entry = self.kinds.entry(kind).or_insert_with(|| (0, plan.to_vec()));
        entry.0 += 1;
        if plan.len() < entry.1.len() {
            entry.1 = plan.to_vec();
        }
    }
}

/// What became of one input.
enum Fate {
    /// Refused here; the Rust's word on the plan.
    Refused(u8, String),
    /// Not asked: bytes that are no plan, or no case of it.
    NotAsked,
    /// Accepted by both and compared.
    Compared(Option<Difference>),
    /// Accepted here alone, and compared without the judgement of `compile`
    /// if the case is one of the plan.
    Alone(String, Option<Result<Verdict, Difference>>),
}

fn word(plan: &[u8]) -> Option<String> {
    match Oracle::compile(plan) {
        Ok(()) => None,
        Err(NoAnswer::Plan(error)) => Some(class(&error.to_string())),
        Err(error) => Some(format!("{error:?}")),
    }
}

fn judge(plan: &[u8], case: &[u8], covered: &mut Covered) -> Fate {
    let read = match Plan::read(plan) {
        Ok(read) => read,
        Err(refusal) if refusal.number <= 4 => return Fate::NotAsked,
        Err(refusal) => {
            let word = word(plan).unwrap_or_else(|| "accepted by the Rust".to_string());
            return Fate::Refused(refusal.number, word);
        }
    };
    let case_reads = Case::read(case, &read).is_ok();
    match word(plan) {
        None if case_reads => Fate::Compared(compare(plan, case, covered).err()),
        None => Fate::NotAsked,
        Some(word) if case_reads => Fate::Alone(word, Some(compare_unchecked(plan, case, covered))),
        Some(word) => Fate::Alone(word, None),
    }
}

fn main() {
    let mut arguments = std::env::args().skip(1).map(|text| text.parse::<u64>().expect("a number"));
    let (Some(count), Some(seed)) = (arguments.next(), arguments.next()) else {
        panic!("wild N SEED");
    };
    let (mut found, mut covered) = (Found::default(), Covered::default());
    let (mut compared, mut alone, mut differ) = (0, 0, 0);
    for number in 0..count {
        let (plan, case) = calls::wild(&mut Random::stream(seed, number));
        let difference = match judge(&plan, &case, &mut covered) {
            Fate::NotAsked => None,
            Fate::Refused(number, word) => {
                found.add(format!("refused {number} here; {word}"), &plan);
                None
            }
            Fate::Compared(difference) => {
                compared += 1;
                difference
            }
            Fate::Alone(word, verdict) => {
                alone += u64::from(verdict.is_some());
                found.add(format!("accepted here; {word}"), &plan);
                verdict.and_then(Result::err)
            }
        };
        if let Some(difference) = difference {
            differ += 1;
            if differ == 1 {
                println!("{difference:#?}\nplan {}\ncase {}", to_hex(&plan), to_hex(&case));
            }
        }
    }
    for (kind, (times, plan)) in &found.kinds {
        println!("{times} {kind}\n    {}", to_hex(plan));
    }
    println!("{alone} accepted here alone, compared without the judgement of compile");
    println!("{compared} compared, {differ} differ");
    std::process::exit(i32::from(differ != 0));
}
