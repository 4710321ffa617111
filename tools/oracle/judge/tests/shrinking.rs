//! The shrinker finds inputs as small as those written by hand.

use inputs::generate::{self, DENSE, Input};
use inputs::random::Random;
use inputs::shrink::shrink;
use inputs::wire::{Case, Plan};
use judge::compare::{Covered, Verdict, compare};
use judge::differences::ENTRIES;

fn cited_otherwise(input: &Input) -> bool {
    let (plan, case) = (input.plan.encode(), input.case.encode());
    let verdict = compare(&plan, &case, &mut Covered::default());
    matches!(verdict, Ok(Verdict::Answered { citing_differs: true, .. }))
}

/// From random inputs that show it down to the first entry of the document.
#[test]
fn the_citing_difference_shrinks_to_its_smallest_input() {
    let mut inputs = (0..).map(|number| generate::input(&mut Random::stream(11, number), DENSE));
    let wanted = ENTRIES[0].plan_bytes().len() + ENTRIES[0].case_bytes().len();
    let sizes = inputs.by_ref().filter(cited_otherwise).take(6).map(|input| {
        let small = shrink(input, cited_otherwise);
        small.plan.encode().len() + small.case.encode().len()
    });
    assert_eq!(sizes.min(), Some(wanted));
}

/// Bytes to values and back, for everything the generator makes.
#[test]
fn values_survive_their_bytes() {
    for number in 0..2000 {
        let input = generate::mixed(&mut Random::stream(12, number));
        assert_eq!(Plan::decode(&input.plan.encode()), Some(input.plan));
        assert_eq!(Case::decode(&input.case.encode()), Some(input.case));
    }
}
