//! The inputs of a class for measuring, with what the model answers.

use inputs::classes::Class;
use model::Outcome;
use model::report::{EVENT, LINE};

pub struct Measured {
    pub plan: Vec<u8>,
    pub case: Vec<u8>,
    pub known: Outcome,
}

/// The first candidates that are answered with as many persons and worlds as
/// the class has.
pub fn inputs_of(class: &Class) -> impl Iterator<Item = Measured> {
    let (mut lines, mut events) = (vec![0; 64 * LINE], vec![0; 4096 * EVENT]);
    let known = class.candidates().map(move |input| {
        let (plan, case) = (input.plan.encode(), input.case.encode());
        let known = model::answer(&plan, &case, &mut lines, &mut events);
        Measured { plan, case, known }
    });
    let within = |(low, high): (u64, u64), count: u64| (low..=high).contains(&count);
    let fits = move |input: &Measured| {
        within(class.persons, input.known.lines) && within(class.worlds, input.known.worlds)
    };
    known.filter(fits).take(class.count)
}
