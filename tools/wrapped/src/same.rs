//! What the wrapper gives, beside what the model tells: refusal, record, counts, and every line and event byte for byte.

use inputs::vectors::{Call, Op};
use lukhveri::{Answered, File, Reason, Refusal};
use model::Outcome;

/// The model's numbers and the bytes of its buffers.
struct Wanted {
    outcome: Outcome,
    lines: Vec<u8>,
    events: Vec<u8>,
}

fn wanted(call: &Call) -> Wanted {
    let (mut lines, mut events) = (vec![0; call.lines_len], vec![0; call.events_len]);
    let outcome = match call.op {
        Op::Check => model::check(&call.plan),
        Op::Answer => model::answer(&call.plan, &call.case, &mut lines, &mut events),
        Op::Show => model::show(&call.plan, &call.case, call.world, &mut lines, &mut events),
    };
    Wanted { outcome, lines, events }
}

/// A refusal names a record of the plan just where the plan is refused.
fn same_file(refusal: &Refusal, plan: &[u8]) -> bool {
    let file = if model::check(plan).refusal == 0 { File::Case } else { File::Plan };
    refusal.place.is_none_or(|place| place.file == file)
}

/// A refusal has the model's numbers.
fn same_refusal(refusal: &Refusal, outcome: &Outcome, plan: &[u8]) -> bool {
    let (count, maximum) = match refusal.reason {
        Reason::TooManyWorlds { count, most } => (count, most),
        _ => (0, 0),
    };
    let (number, record) = (refusal.number(), refusal.record());
    let told = Outcome { refusal: number, record, count, maximum, ..Outcome::default() };
    *outcome == told && same_file(refusal, plan)
}

/// A result has the model's counts, and its lines and events the model's bytes.
fn same_result(answered: &Answered, wanted: &Wanted) -> bool {
    let lines: Vec<Vec<u8>> = answered.lines().map(|line| line.bytes()).collect();
    let events: Vec<Vec<u8>> = answered.events().map(|event| event.bytes()).collect();
    let counts = Outcome {
        lines: lines.len() as u64,
        events: events.len() as u64,
        worlds: answered.worlds(),
        ..Outcome::default()
    };
    counts == wanted.outcome
        && wanted.lines.starts_with(&lines.concat())
        && wanted.events.starts_with(&events.concat())
}

fn same(result: Result<Answered, Refusal>, wanted: &Wanted, plan: &[u8]) -> bool {
    match result {
        Ok(answered) => same_result(&answered, wanted),
        Err(refusal) => same_refusal(&refusal, &wanted.outcome, plan),
    }
}

/// Whether the wrapper and the model agree on a call, in dirty buffers; the refusal's number.
pub fn agree(call: &Call) -> Result<u8, String> {
    let wanted = wanted(call);
    let (mut lines, mut events) = (vec![0xa5; call.lines_len], vec![0xa5; call.events_len]);
    let same = match call.op {
        Op::Check => match lukhveri::check(&call.plan) {
            Ok(()) => wanted.outcome == Outcome::default(),
            Err(refusal) => same_refusal(&refusal, &wanted.outcome, &call.plan),
        },
        Op::Answer => {
            let result = lukhveri::answer_into(&call.plan, &call.case, &mut lines, &mut events);
            same(result, &wanted, &call.plan)
        }
        Op::Show => {
            let (plan, case) = (&call.plan, &call.case);
            let result = lukhveri::show_into(plan, case, call.world, &mut lines, &mut events);
            same(result, &wanted, plan)
        }
    };
    let untouched = call.op == Op::Check;
    if same && (untouched || (lines == wanted.lines && events == wanted.events)) {
        Ok(wanted.outcome.refusal)
    } else {
        Err(format!("{call:?}"))
    }
}
