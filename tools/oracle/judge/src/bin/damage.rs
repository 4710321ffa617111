//! damage N SEED: N damaged inputs on the model, which must neither panic nor
//! leave a byte that it should not. Build with the profile `checked`.

use inputs::calls;
use inputs::random::Random;
use inputs::vectors::{Expected, to_hex};
use judge::sides::model_answers;
use model::Citing;

/// A refusal carries nothing but its numbers; a refused plan is refused alike
/// by all operations.
fn consistent(check: &Expected, answer: &Expected) -> bool {
    let bare = |found: &Expected| {
        found.refusal == 0 || (found.lines, found.events, found.worlds) == (0, 0, 0)
    };
    let same = check.refusal == 0 || check == answer;
    let counted = answer.refusal == 11 || (answer.count, answer.maximum) == (0, 0);
    bare(check) && bare(answer) && same && counted
}

fn main() {
    let mut arguments = std::env::args().skip(1).map(|text| text.parse::<u64>().expect("a number"));
    let (Some(count), Some(seed)) = (arguments.next(), arguments.next()) else {
        panic!("damage N SEED");
    };
    let mut refusals = [0u64; 15];
    for number in 0..count {
        let random = &mut Random::stream(seed, number);
        let (plan, case) = calls::damaged(random);
        let calls = calls::on(random, &plan, &case);
        let [check, answer, show] = calls.map(|call| model_answers(Citing::ByBlock, &call));
        let sound = consistent(&check, &answer) && consistent(&check, &show);
        assert!(sound, "plan {} case {}", to_hex(&plan), to_hex(&case));
        for found in [check, answer, show] {
            refusals[found.refusal as usize] += 1;
        }
    }
    println!("answers by refusal number {refusals:?}");
    println!("{count} damaged inputs, no panic, no stray byte");
}
