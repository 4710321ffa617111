//! Random, damaged and tiny inputs.

use inputs::generate::{self, DENSE, Input, Size, TINY};
use inputs::mutate;
use inputs::random::Random;
use inputs::vectors::{Call, Op};

use super::List;
use crate::compare::roomy;

/// Smaller than tiny: for a checker that computes on definitions.
pub const SMALLEST: Size = Size {
    persons: 3,
    booleans: 2,
    relations: 1,
    composites: 1,
    edges: 3,
    cuts: 2,
    attachments: 1,
    bars: 1,
    statuses: 1,
    unresolved: 1,
    open: 45,
};

fn bytes(input: &Input) -> (Vec<u8>, Vec<u8>) {
    (input.plan.encode(), input.case.encode())
}

pub fn add_random(list: &mut List, seed: u64) {
    for number in 0..250 {
        let random = &mut Random::stream(seed ^ 1, number);
        let size = if number % 3 == 0 { DENSE } else { TINY };
        let (plan, case) = bytes(&generate::input(random, size));
        let found = list.answer(&plan, &case);
        if found.refusal == 0 && random.percent(60) {
            let world = random.below(found.worlds as usize + 1) as u64;
            list.show(&plan, &case, world);
        }
    }
}

pub fn add_lengths(list: &mut List, seed: u64) {
    for number in 0..14 {
        let random = &mut Random::stream(seed ^ 2, number);
        let (plan, case) = bytes(&generate::input(random, TINY));
        let op = if number % 3 == 0 { Op::Show } else { Op::Answer };
        list.lengths(roomy(op, &plan, &case, 0));
    }
}

pub fn add_outside(list: &mut List, seed: u64) {
    for number in 0..120 {
        let random = &mut Random::stream(seed ^ 3, number);
        let mut input = generate::input(random, if number % 4 == 0 { DENSE } else { TINY });
        generate::loosen(random, &mut input.plan);
        let (plan, case) = bytes(&input);
        let found = list.answer(&plan, &case);
        if found.refusal == 0 && number % 4 == 1 {
            list.show(&plan, &case, found.worlds / 2);
        }
    }
}

pub fn add_damaged(list: &mut List, seed: u64) {
    for number in 0..130 {
        let random = &mut Random::stream(seed ^ 4, number);
        let input = generate::input(random, TINY);
        let (mut plan, mut case) = bytes(&input);
        match number % 4 {
            0 => plan = mutate::bytes(random, &plan),
            1 => case = mutate::bytes(random, &case),
            2 => plan = mutate::records(random, &input.plan.records()),
            _ => case = mutate::records(random, &input.case.records()),
        }
        list.check(&plan);
        let lines_len = random.pick(&[0, 58, 116, 300]);
        let events_len = random.pick(&[0, 24, 240]);
        let op = if number % 5 == 0 { Op::Show } else { Op::Answer };
        list.add(Call { op, plan, case, world: 0, lines_len, events_len });
    }
}

/// Line and event kinds seen so far: rare ones are waited for.
#[derive(Default)]
struct Seen {
    lines: [u32; 7],
    events: [u32; 10],
}

impl Seen {
    const ENOUGH: u32 = 25;

    fn is_new(&self, expected: &inputs::vectors::Expected) -> bool {
        let mut lines = expected.line_bytes.chunks_exact(29).map(|line| line[1] as usize);
        let mut events = expected.event_bytes.chunks_exact(12).map(|event| event[0] as usize);
        lines.any(|kind| self.lines[kind] < Seen::ENOUGH)
            || events.any(|kind| self.events[kind] < Seen::ENOUGH)
    }

    fn take(&mut self, expected: &inputs::vectors::Expected) {
        expected.line_bytes.chunks_exact(29).for_each(|line| self.lines[line[1] as usize] += 1);
        expected.event_bytes.chunks_exact(12).for_each(|event| self.events[event[0] as usize] += 1);
    }
}

pub fn add_tiny(list: &mut List, seed: u64) {
    let mut seen = Seen::default();
    let mut number = 0;
    while list.vectors.len() < 400 {
        number += 1;
        let random = &mut Random::stream(seed ^ 5, number);
        let (plan, case) = bytes(&generate::input(random, SMALLEST));
        let call = roomy(Op::Answer, &plan, &case, 0);
        let found = crate::sides::model_answers(model::Citing::ByBlock, &call);
        let common = found.worlds == 0 || !seen.is_new(&found);
        if found.refusal != 0 || found.worlds > 8 || (common && !random.percent(20)) {
            continue;
        }
        seen.take(&found);
        // Just enough room, or a little more.
        let (more_lines, more_events) = random.pick(&[(0, 0), (0, 0), (1, 5), (29, 12)]);
        let lines_len = found.line_bytes.len() + more_lines;
        let events_len = found.event_bytes.len() + more_events;
        list.add(Call { lines_len, events_len, ..call });
        if found.worlds > 0 && random.percent(25) {
            list.show(&plan, &case, random.below(found.worlds as usize) as u64);
        }
    }
}
