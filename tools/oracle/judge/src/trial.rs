//! Random inputs of the compared domain on the Rust and on those held to it.

use std::collections::BTreeMap;

use crate::compare::{Covered, Difference, MOST_SHOWN, Verdict, Voice, compare_voices};
use inputs::generate::{self, Input};
use inputs::random::Random;
use inputs::shrink::shrink;
use inputs::vectors::to_hex;
use inputs::wire::{Case, Plan};

#[derive(Default)]
struct Tally {
    verdicts: BTreeMap<String, u64>,
    covered: Covered,
    shown: u64,
    citing: u64,
    differ: u64,
}

impl Tally {
    fn take(&mut self, verdict: Verdict) {
        let name = match verdict {
            Verdict::Answered { citing_differs, worlds } => {
                self.citing += u64::from(citing_differs);
                self.shown += if worlds <= MOST_SHOWN { worlds } else { 0 };
                "answered".to_string()
            }
            Verdict::Refused(number) => format!("refused {number} by all"),
        };
        *self.verdicts.entry(name).or_default() += 1;
    }

    fn print(&self, count: u64) {
        for (name, count) in &self.verdicts {
            println!("{count} {name}");
        }
        println!("lines by kind {:?}", self.covered.lines);
        println!("events by kind {:?}", &self.covered.events[1..]);
        println!("{} worlds shown", self.shown);
        println!("{} inputs whose lines differ between the citing rules", self.citing);
        println!("{count} compared, {} differ", self.differ);
    }
}

/// The shrinker works on values that decode from their own bytes.
fn bytes(input: &Input) -> (Vec<u8>, Vec<u8>) {
    let (plan, case) = (input.plan.encode(), input.case.encode());
    assert_eq!(Plan::decode(&plan).as_ref(), Some(&input.plan), "the plan's bytes read back");
    assert_eq!(Case::decode(&case).as_ref(), Some(&input.case), "the case's bytes read back");
    (plan, case)
}

fn differs(voices: &[Voice], input: &Input) -> Option<Difference> {
    let (plan, case) = (input.plan.encode(), input.case.encode());
    compare_voices(voices, &plan, &case, &mut Covered::default()).err()
}

/// The smallest input found that differs, or has no answer, as this one.
fn report(voices: &[Voice], input: Input, first: Difference) {
    let like = |found: Difference| found.unanswered == first.unanswered;
    let smallest = shrink(input, |next| differs(voices, next).is_some_and(like));
    let (plan, case) = (smallest.plan.encode(), smallest.case.encode());
    println!("{:#?}", differs(voices, &smallest));
    println!("plan {}\ncase {}", to_hex(&plan), to_hex(&case));
}

/// The two numbers that a program is called with: how many inputs, and the
/// seed. Says how to call it if they are not there.
pub fn count_and_seed(name: &str) -> (u64, u64) {
    let words: Vec<String> = std::env::args().skip(1).collect();
    let numbers: Vec<u64> = words.iter().flat_map(|word| word.parse()).collect();
    match numbers[..] {
        [count, seed] if words.len() == 2 => (count, seed),
        _ => {
            eprintln!("{name} N SEED, two numbers: how many inputs, and where they start");
            std::process::exit(2)
        }
    }
}

/// `count` random inputs on the Rust and on all voices; ends the program, with
/// 1 if any differ.
pub fn run(voices: &[Voice], count: u64, seed: u64) -> ! {
    let mut tally = Tally::default();
    for number in 0..count {
        let input = generate::mixed(&mut Random::stream(seed, number));
        let (plan, case) = bytes(&input);
        match compare_voices(voices, &plan, &case, &mut tally.covered) {
            Ok(verdict) => tally.take(verdict),
            Err(first) => {
                tally.differ += 1;
                if tally.differ == 1 {
                    report(voices, input, first);
                }
            }
        }
    }
    tally.print(count);
    std::process::exit(i32::from(tally.differ != 0))
}
