//! builders N SEED: N random plans by the builder, each accepted by the check and read back with the same records; a random case over
//! each by the builder, which is not refused but for its worlds, and answered as the model does. Plan and case that are opened again and
//! finished are the same bytes; with random things replaced and removed the plan is accepted.

use std::time::Instant;

use inputs::random::Random;
use inputs::vectors::{Call, Op};
use lukhveri::{CaseBuilder, Plan, PlanBuilder};
use wrapped::building::Maker;

/// What was made.
#[derive(Default)]
struct Tally {
    cases: u64,
    answered: u64,
    too_many_worlds: u64,
    turned_away: u64,
    longest: usize,
}

fn try_case(maker: &mut Maker, plan: &Plan, tally: &mut Tally) -> Result<(), String> {
    let Some(case) = maker.case(plan) else {
        return Ok(());
    };
    tally.cases += 1;
    let reopened = CaseBuilder::reopen(plan, case.bytes()).map_err(|error| error.to_string())?;
    if reopened.finish().as_ref() != Ok(&case) {
        return Err(format!("reopened otherwise: {plan:?} {case:?}"));
    }
    let (plan, case) = (plan.bytes().to_vec(), case.bytes().to_vec());
    let (world, lines_len, events_len) = (0, lukhveri::LINES_LENGTH, lukhveri::EVENTS_LENGTH);
    let call = Call { op: Op::Answer, plan, case, world, lines_len, events_len };
    match wrapped::same::agree(&call)? {
        0 => tally.answered += 1,
        11 => tally.too_many_worlds += 1,
        number => return Err(format!("refused {number}: {call:?}")),
    }
    Ok(())
}

fn try_one(random: &mut Random, tally: &mut Tally) -> Result<(), String> {
    let mut maker = Maker::new(random);
    let plan = maker.plan().map_err(|error| format!("not finished: {error}"))?;
    lukhveri::check(plan.bytes()).map_err(|refusal| format!("{refusal}: {plan:?}"))?;
    let read = Plan::read(plan.bytes()).map_err(|refusal| refusal.to_string())?;
    let counts = |plan: &Plan| {
        let records = plan.records();
        (records.facts.len(), records.nodes.len(), records.edges.len(), plan.decisions().len())
    };
    if counts(&read) != counts(&plan) {
        return Err(format!("read back otherwise: {plan:?}"));
    }
    let reopened = PlanBuilder::reopen(&read).finish().map_err(|error| error.to_string())?;
    if reopened.bytes() != plan.bytes() {
        return Err(format!("reopened otherwise: {plan:?}"));
    }
    tally.longest = tally.longest.max(plan.bytes().len());
    try_case(&mut maker, &plan, tally)?;
    let changed = maker.changed(&plan).map_err(|error| format!("not changed: {error}"))?;
    lukhveri::check(changed.bytes()).map_err(|refusal| format!("{refusal}: {changed:?}"))?;
    tally.turned_away += maker.turned_away;
    Ok(())
}

fn main() {
    let (count, seed) = wrapped::count_and_seed("builders N SEED");
    let (start, mut tally) = (Instant::now(), Tally::default());
    for number in 0..count {
        if let Err(what) = try_one(&mut Random::stream(seed, number), &mut tally) {
            println!("{what}");
            std::process::exit(1);
        }
    }
    println!(
        "{count} plans accepted, the longest {} bytes; {} cases: {} answered, {} with too many worlds; {} things turned away; {:.1} s",
        tally.longest,
        tally.cases,
        tally.answered,
        tally.too_many_worlds,
        tally.turned_away,
        start.elapsed().as_secs_f64()
    );
}
