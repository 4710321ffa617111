//! circles N SEED: circles of N random inputs, damaged ones among them, by the proved code and by the model, which must agree. Of each input the
//! circles of some who are joined with others, of some persons, and of some numbers from 0 to 255.

use inputs::random::Random;
use inputs::samples::{self, Sample};
use inputs::smallest::smallest;
use inputs::vectors::to_hex;
use judge::trial::count_and_seed;

/// How many of each sort are asked for in an input.
const ASKED: usize = 4;

/// What was compared.
struct Tally {
    read: u64,
    /// By number, 1 to 7.
    refusals: [u64; 8],
    asked: [u64; 256],
    /// By how many persons are in it: none, one, more.
    circles: [u64; 3],
}

impl Tally {
    fn new() -> Tally {
        Tally {
            read: 0,
            refusals: [0; 8],
            asked: [0; 256],
            circles: [0; 3],
        }
    }

    fn print(&self, count: u64) {
        let calls: u64 = self.asked.iter().sum();
        let numbers = self.asked.iter().filter(|&&asked| asked != 0).count();
        println!(
            "{count} inputs alike, {} of them read; refused by number {:?}; {calls} circles of {numbers} numbers, with nobody, one person, more: {:?}",
            self.read,
            &self.refusals[1..],
            self.circles
        );
    }
}

/// The circle of each number; nobody's for all where plan or case is not read.
fn expected(plan: &[u8], case: &[u8], tally: &mut Tally) -> [u64; 256] {
    let mut all = [0; 256];
    match model::circles(plan, case) {
        Ok(circles) => {
            tally.read += 1;
            all[..64].copy_from_slice(&circles);
        }
        Err(refusal) => tally.refusals[refusal.number as usize] += 1,
    }
    all
}

fn differ(plan: &[u8], case: &[u8]) -> bool {
    let all = expected(plan, case, &mut Tally::new());
    (0..=255).any(|person| port::circle(plan, case, person) != all[person as usize])
}

/// Some who have others in their circles, some persons, and some numbers.
fn some(all: &[u64; 256], random: &mut Random) -> Vec<u8> {
    let joined: Vec<u8> = (0..64)
        .filter(|&person| all[person as usize].count_ones() > 1)
        .collect();
    let persons: Vec<u8> = (0..64).collect();
    let numbers: Vec<u8> = (0..=255).collect();
    let mut some = Vec::new();
    for sort in [joined, persons, numbers] {
        let times = if sort.is_empty() { 0 } else { ASKED };
        some.extend((0..times).map(|_| random.pick(&sort)));
    }
    some
}

/// Whether these circles are the model's.
fn alike(sample: &Sample, random: &mut Random, tally: &mut Tally) -> bool {
    let all = expected(&sample.plan, &sample.case, tally);
    some(&all, random).into_iter().all(|person| {
        let circle = port::circle(&sample.plan, &sample.case, person);
        tally.asked[person as usize] += 1;
        tally.circles[circle.count_ones().min(2) as usize] += 1;
        circle == all[person as usize]
    })
}

fn main() {
    let (count, seed) = count_and_seed("circles");
    let mut tally = Tally::new();
    for number in 0..count {
        let random = &mut Random::stream(seed, number);
        let sample = match number % 2 {
            0 => samples::answerable(random),
            _ => samples::random(random),
        };
        if !alike(&sample, random, &mut tally) {
            let (plan, case) = smallest(sample, differ);
            println!(
                "circles differ: plan {} case {}",
                to_hex(&plan),
                to_hex(&case)
            );
            std::process::exit(1);
        }
    }
    tally.print(count);
}
