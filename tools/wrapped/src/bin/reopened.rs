//! reopened N SEED: at least N random calls; where plan and case can be opened again and are finished without a change, the model answers them
//! as it answers the bytes that came.

use std::time::Instant;

use inputs::calls;
use inputs::random::Random;
use inputs::vectors::Call;
use lukhveri::{CaseBuilder, Plan, PlanBuilder};

/// What was opened again.
#[derive(Default)]
struct Tally {
    plans: u64,
    cases: u64,
    /// In fewer bytes, since empty lists are left out.
    shorter: u64,
}

type Answered = (model::Outcome, Vec<u8>, Vec<u8>);

fn answered(plan: &[u8], case: &[u8]) -> Answered {
    let (mut lines, mut events) =
        (vec![0; lukhveri::LINES_LENGTH], vec![0; lukhveri::EVENTS_LENGTH]);
    let outcome = model::answer(plan, case, &mut lines, &mut events);
    (outcome, lines, events)
}

fn try_one(call: &Call, tally: &mut Tally) -> Result<(), String> {
    let Ok(plan) = Plan::read(&call.plan) else {
        return Ok(());
    };
    let finished = PlanBuilder::reopen(&plan).finish().map_err(|error| error.to_string())?;
    tally.plans += 1;
    let Ok(case) = CaseBuilder::reopen(&plan, &call.case) else {
        return Ok(());
    };
    tally.cases += 1;
    let case = case.finish().map_err(|error| error.to_string())?;
    let same = call.plan == finished.bytes() && call.case == case.bytes();
    let shorter = finished.bytes().len() + case.bytes().len() < call.plan.len() + call.case.len();
    tally.shorter += u64::from(shorter);
    if same
        || shorter && answered(&call.plan, &call.case) == answered(finished.bytes(), case.bytes())
    {
        return Ok(());
    }
    Err(format!("means something else: {call:?}"))
}

fn main() {
    let (count, seed) = wrapped::count_and_seed("reopened N SEED");
    let (start, mut done, mut tally) = (Instant::now(), 0, Tally::default());
    for number in 0.. {
        if done >= count {
            break;
        }
        for call in calls::random(&mut Random::stream(seed, number)) {
            if let Err(what) = try_one(&call, &mut tally) {
                println!("{what}");
                std::process::exit(1);
            }
            done += 1;
        }
    }
    println!(
        "{done} calls: {} plans opened again and finished; {} cases over them mean the same, {} in fewer bytes; {:.1} s",
        tally.plans,
        tally.cases,
        tally.shorter,
        start.elapsed().as_secs_f64()
    );
}
