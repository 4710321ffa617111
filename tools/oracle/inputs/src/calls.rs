//! Random calls of all three operations, for comparing implementations of
//! document 01: good inputs, plans that only it accepts, and damaged bytes,
//! with buffers of all lengths.

use crate::generate;
use crate::mutate;
use crate::random::Random;
use crate::vectors::{Call, Op};

/// The three operations on one random input.
pub fn random(random: &mut Random) -> [Call; 3] {
    let (plan, case) = if random.percent(40) { accepted(random) } else { damaged(random) };
    on(random, &plan, &case)
}

/// The three operations on one input, with random buffers and world.
pub fn on(random: &mut Random, plan: &[u8], case: &[u8]) -> [Call; 3] {
    [Op::Check, Op::Answer, Op::Show].map(|op| Call {
        op,
        plan: plan.to_vec(),
        case: case.to_vec(),
        world: random.pick(&[0, 0, 1, 2, 5, 63, 4095, 4096, u64::MAX]),
        lines_len: random.pick(&[0, 28, 29, 57, 116, 203, 1855, 1856, 1900]),
        events_len: random.pick(&[0, 11, 12, 60, 600, 49_152]),
    })
}

fn accepted(random: &mut Random) -> (Vec<u8>, Vec<u8>) {
    let mut input = generate::mixed(random);
    if random.percent(40) {
        generate::loosen(random, &mut input.plan);
    }
    (input.plan.encode(), input.case.encode())
}

/// Damages plan, case or both, in bytes or in whole records.
pub fn damaged(random: &mut Random) -> (Vec<u8>, Vec<u8>) {
    let input = generate::mixed(random);
    let (mut plan, mut case) = (input.plan.encode(), input.case.encode());
    match random.below(6) {
        0 => plan = mutate::bytes(random, &plan),
        1 => case = mutate::bytes(random, &case),
        2 => plan = mutate::records(random, &input.plan.records()),
        3 => case = mutate::records(random, &input.case.records()),
        4 => {
            plan = mutate::bytes(random, &plan);
            case = mutate::bytes(random, &case);
        }
        _ => {
            plan = mutate::records(random, &input.plan.records());
            case = mutate::records(random, &input.case.records());
        }
    }
    (plan, case)
}

/// Loosened plans and damaged records, so that document 01 accepts much that the Rust refuses.
pub fn wild(random: &mut Random) -> (Vec<u8>, Vec<u8>) {
    let size = if random.percent(60) { generate::TINY } else { generate::DENSE };
    let mut input = generate::input(random, size);
    if random.percent(40) {
        generate::loosen(random, &mut input.plan);
    }
    let (mut plan, mut case) = (input.plan.encode(), input.case.encode());
    if random.percent(50) {
        plan = mutate::records(random, &input.plan.records());
    }
    if random.percent(30) {
        case = mutate::records(random, &input.case.records());
    }
    (plan, case)
}
