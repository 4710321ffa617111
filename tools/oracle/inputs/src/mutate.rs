//! Damaged copies of good bytes.

use crate::random::Random;

/// Values around the limits of document 01.
const EDGES: [u8; 18] = [0, 1, 2, 3, 4, 5, 6, 8, 9, 15, 16, 17, 31, 32, 63, 64, 65, 255];

/// Damages bytes in one to four places, blindly.
pub fn bytes(random: &mut Random, good: &[u8]) -> Vec<u8> {
    let mut bytes = good.to_vec();
    for _ in 0..random.between(1, 4) {
        damage(random, &mut bytes);
    }
    bytes
}

fn damage(random: &mut Random, bytes: &mut Vec<u8>) {
    let at = random.below(bytes.len() + 1);
    match random.below(8) {
        0 if at < bytes.len() => bytes[at] ^= 1 << random.below(8),
        1 if at < bytes.len() => bytes[at] = random.byte(256),
        2 | 3 if at < bytes.len() => bytes[at] = random.pick(&EDGES),
        4 => bytes.truncate(at),
        5 => {
            let end = (at + random.between(1, 6)).min(bytes.len());
            bytes.drain(at..end);
        }
        6 => bytes.insert(at, random.pick(&EDGES)),
        _ => {
            let end = (at + random.between(1, 24)).min(bytes.len());
            let copy = bytes[at..end].to_vec();
            let to = random.below(bytes.len() + 1);
            bytes.splice(to..to, copy);
        }
    }
}

/// Damages whole records: leaves one out, repeats one, swaps two, changes one.
pub fn records(random: &mut Random, good: &[Vec<u8>]) -> Vec<u8> {
    let mut records = good.to_vec();
    let at = random.below(records.len());
    let to = random.below(records.len());
    match random.below(6) {
        0 => {
            records.remove(at);
        }
        1 => records.insert(to, records[at].clone()),
        2 => {
            let times = random.pick(&[1, 15, 16, 31, 32, 63, 64, 255, 256]);
            let copy = records[at].clone();
            records.splice(at..at, std::iter::repeat_n(copy, times));
        }
        3 => records.swap(at, to),
        4 => {
            let bit = random.below(8);
            if let Some(bits) = records[at].get_mut(1) {
                *bits ^= 1 << bit;
            }
        }
        _ => damage(random, &mut records[at]),
    }
    records.concat()
}
