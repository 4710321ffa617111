//! The smallest input found that still differs.

use crate::samples::Sample;
use crate::shrink::shrink;

/// So many tries and no more: an input at a limit has very many neighbours.
const TRIES: u32 = 20_000;

/// As many bytes as most records have, and more.
const RUN: usize = 48;

/// Record by record, or byte by byte where the bytes were damaged.
pub fn smallest(sample: Sample, differ: impl Fn(&[u8], &[u8]) -> bool) -> (Vec<u8>, Vec<u8>) {
    let mut left = TRIES;
    let mut shows = |plan: &[u8], case: &[u8]| {
        left = left.saturating_sub(1);
        left > 0 && differ(plan, case)
    };
    if let Some(input) = sample.source {
        let least = shrink(input, |next| shows(&next.plan.encode(), &next.case.encode()));
        return (least.plan.encode(), least.case.encode());
    }
    let (mut plan, mut case) = (sample.plan, sample.case);
    loop {
        let before = plan.len() + case.len();
        plan = shorten(plan, |next| shows(next, &case));
        case = shorten(case, |next| shows(&plan, next));
        if plan.len() + case.len() == before {
            return (plan, case);
        }
    }
}

/// Bytes alone, byte by byte.
pub fn shortest(mut bytes: Vec<u8>, differ: impl Fn(&[u8]) -> bool) -> Vec<u8> {
    let mut left = TRIES;
    loop {
        let before = bytes.len();
        bytes = shorten(bytes, |next| {
            left = left.saturating_sub(1);
            left > 0 && differ(next)
        });
        if bytes.len() == before {
            return bytes;
        }
    }
}

/// Leaves out bytes in a row, many before few, where that still shows it.
fn shorten(mut bytes: Vec<u8>, mut shows: impl FnMut(&[u8]) -> bool) -> Vec<u8> {
    for run in (1..=RUN).rev() {
        let mut start = 0;
        while start + run <= bytes.len() {
            let next = [&bytes[..start], &bytes[start + run..]].concat();
            if shows(&next) {
                bytes = next;
            } else {
                start += 1;
            }
        }
    }
    bytes
}
