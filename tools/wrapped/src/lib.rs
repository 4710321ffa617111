//! The wrapper of hosts/rust beside the model of document 01.

pub mod beside;
pub mod building;
pub mod claims;
pub mod households;
pub mod marking;
pub mod same;
pub mod strangers;
pub mod waiting;

/// The two numbers that a program is called with: how many, and the seed.
pub fn count_and_seed(usage: &str) -> (u64, u64) {
    let words: Vec<String> = std::env::args().skip(1).collect();
    numbers(&words, usage)
}

/// The same, from these words.
pub fn numbers(words: &[String], usage: &str) -> (u64, u64) {
    let mut numbers = words.iter().map(|text| text.parse().ok());
    match (numbers.next().flatten(), numbers.next().flatten(), numbers.next()) {
        (Some(count), Some(seed), None) => (count, seed),
        _ => {
            eprintln!("usage: {usage}");
            std::process::exit(2);
        }
    }
}
