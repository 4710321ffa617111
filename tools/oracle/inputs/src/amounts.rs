//! Lists of amounts for pooling.

use crate::random::Random;

/// Nothing, a cent, the most that there can be, a little less, or any.
fn amount(random: &mut Random) -> u32 {
    match random.below(6) {
        0 => 0,
        1 => 1,
        2 => u32::MAX,
        3 => u32::MAX - random.below(4) as u32,
        4 => random.below(100_000) as u32,
        _ => random.next() as u32,
    }
}

/// So many; in one list of eight all are equal.
pub fn list(random: &mut Random, length: usize) -> Vec<u32> {
    if random.below(8) == 0 {
        return vec![amount(random); length];
    }
    (0..length).map(|_| amount(random)).collect()
}

/// As many as there are persons, in seven of ten; else one short, one over, none, 64, 65 or any number.
pub fn length(random: &mut Random, persons: usize) -> usize {
    match random.below(20) {
        0 => persons.saturating_sub(1),
        1 => persons + 1,
        2 => 0,
        3 => 64,
        4 => 65,
        5 => random.below(130),
        _ => persons,
    }
}
