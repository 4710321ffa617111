//! damaged N SEED: N damaged plans, N damaged cases over whole plans, and now and then what they were made from, through the proved code and
//! the model: checked, answered and a world shown, in dirty buffers of random lengths. The same seven numbers and the same bytes.

use inputs::generate;
use inputs::mutate;
use inputs::random::Random;
use inputs::vectors::to_hex;
use judge::trial::count_and_seed;
use port::alike::{Asked, Tally};

/// Damage to the bytes, or to whole records.
fn damage(random: &mut Random, records: &[Vec<u8>]) -> Vec<u8> {
    if random.percent(50) {
        mutate::bytes(random, &records.concat())
    } else {
        mutate::records(random, records)
    }
}

fn compare(plan: &[u8], case: &[u8], random: &mut Random, tally: &mut Tally) {
    let same = port::check(plan) == model::check(plan);
    assert!(same, "the checks differ: plan {}", to_hex(plan));
    let world = random.pick(&[0, 0, 1, 2, 5, 63, 4095, 4096, u64::MAX]);
    let answer = Asked::answer(plan, case);
    for asked in [answer, answer.show(world)] {
        if let Err(difference) = asked.compare(random, tally) {
            let (plan, case) = (to_hex(plan), to_hex(case));
            panic!("{difference} differ: plan {plan} case {case}");
        }
    }
}

fn main() {
    let (count, seed) = count_and_seed("damaged");
    let (mut plans, mut cases) = (Tally::default(), Tally::default());
    for number in 0..count {
        let random = &mut Random::stream(seed, number);
        let input = generate::mixed(random);
        let (plan, case) = (input.plan.encode(), input.case.encode());
        let damaged_plan = damage(random, &input.plan.records());
        compare(&damaged_plan, &case, random, &mut plans);
        let damaged_case = damage(random, &input.case.records());
        compare(&plan, &damaged_case, random, &mut cases);
        if number % 10 == 0 {
            compare(&plan, &case, random, &mut cases);
        }
    }
    println!("{count} damaged plans: {plans}");
    println!("{count} damaged cases: {cases}");
}
