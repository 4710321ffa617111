//! A short differential run with every test run; tools/differential does more.

use inputs::generate;
use inputs::random::Random;
use judge::compare::{Covered, compare, compare_unchecked};

#[test]
fn the_rust_and_the_model_agree() {
    for number in 0..1500 {
        let input = generate::mixed(&mut Random::stream(21, number));
        let verdict = compare(&input.plan.encode(), &input.case.encode(), &mut Covered::default());
        assert!(verdict.is_ok(), "{verdict:?}");
    }
}

#[test]
fn so_they_do_behind_the_judgement_of_compile() {
    for number in 0..1500 {
        let random = &mut Random::stream(22, number);
        let mut input = generate::input(random, generate::DENSE);
        generate::loosen(random, &mut input.plan);
        let (plan, case) = (input.plan.encode(), input.case.encode());
        if model::check(&plan).refusal == 0 {
            let verdict = compare_unchecked(&plan, &case, &mut Covered::default());
            assert!(verdict.is_ok(), "{verdict:?}");
        }
    }
}
