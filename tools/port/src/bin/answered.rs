//! answered N SEED: N random inputs answered, and their worlds shown, by the proved code and by the model: the same seven numbers and the same
//! bytes, in dirty buffers that are empty, one byte short, just enough or long. Every world of an input that has 64 or fewer, and one past the
//! last; of others one world, and one past the last.

use inputs::random::Random;
use inputs::samples::{self, Sample};
use inputs::smallest::smallest;
use inputs::vectors::to_hex;
use judge::trial::count_and_seed;
use port::alike::{Asked, Difference, Tally, compare_all};

/// The smallest input found that differs, or the one given if only its own buffers show it.
fn report(sample: Sample, first: Difference) {
    let (plan, case) = smallest(sample, |plan, case| compare_all(plan, case).is_err());
    let difference = compare_all(&plan, &case).err().unwrap_or(first);
    println!(
        "{difference} differ: plan {} case {}",
        to_hex(&plan),
        to_hex(&case)
    );
}

fn main() {
    let (count, seed) = count_and_seed("answered");
    let mut tally = Tally::default();
    for number in 0..count {
        let random = &mut Random::stream(seed, number);
        let sample = samples::answerable(random);
        let asked = Asked::answer(&sample.plan, &sample.case).and_worlds(random);
        let alike = asked
            .into_iter()
            .try_for_each(|asked| asked.compare(random, &mut tally));
        if let Err(first) = alike {
            report(sample, first);
            std::process::exit(1);
        }
    }
    println!("{count} inputs: {tally}");
}
